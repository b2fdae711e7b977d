//! The function table (document 02, No. 2): the one that the Rust has compiled in (function.rs, `FUNCTIONS`), what a
//! check with it or with another table (`generations`) asks of a call, and what is answered to a name. Signatures and
//! names that are easily taken for those of the table are in `near` and `spelling`.

pub mod near;
pub mod spelling;

use crate::answer::Outcome;
use crate::page::record::{Extra, Record, Signature, Text};
use crate::page::write;
use crate::refusal::{UNKNOWN_FUNCTION, UNLIKE_SIGNATURE};
use crate::tree;
use promql_parser::door;
use promql_parser::parser::Function;
use std::collections::BTreeMap;
use std::sync::LazyLock;

/// Where the names stand: the compiled table can be asked about a name, but does not tell which it has.
const SOURCE: &str = include_str!("../../promql-parser/src/parser/function.rs");

/// A table of functions: each name with its signature, the names ascending as bytes.
pub type Table = BTreeMap<&'static str, Signature<'static>>;

/// What is registered at run time is no part of it.
static TABLE: LazyLock<Table> = LazyLock::new(|| {
    let found = written_names().map(|name| {
        let function = door::get_function(name).expect("the compiled table has the name");
        (name, signature_of(&function))
    });
    found.collect()
});

/// The first text behind each `function!(` of the source.
pub fn written_names() -> impl Iterator<Item = &'static str> {
    let rows = SOURCE.split("function!(").skip(1);
    rows.map(|row| row.split('"').nth(1).expect("a row begins with its name"))
}

/// The Rust's function as a page carries it; `variadic` is 0 for a fixed count, below 0 for an unlimited one.
fn signature_of(function: &Function) -> Signature<'static> {
    let kinds = function.arg_types.iter().copied();
    Signature {
        name: Text::from(function.name),
        kinds: kinds.map(tree::kind_of).collect(),
        extra: match function.variadic {
            0 => Extra::Fixed,
            ..0 => Extra::Unlimited,
            upper => Extra::Upper(upper as u64),
        },
        result: tree::kind_of(function.return_type),
    }
}

/// The repository's table.
pub fn table() -> &'static Table {
    &TABLE
}

/// The names of the table, ascending.
pub fn names() -> impl Iterator<Item = &'static str> {
    TABLE.keys().copied()
}

/// The signatures of the table, by their names ascending.
pub fn signatures() -> impl Iterator<Item = &'static Signature<'static>> {
    TABLE.values()
}

pub fn signature(name: &str) -> Option<&'static Signature<'static>> {
    TABLE.get(name)
}

/// What a table has against a record: 37 and 38 of a call, nothing of any other.
pub fn fault(table: &Table, record: &Record) -> Option<u8> {
    let Record::Call {
        signature: carried, ..
    } = record
    else {
        return None;
    };
    match table.get(carried.name.text.as_ref()) {
        None => Some(UNKNOWN_FUNCTION),
        Some(known) => (!is_like(carried, known)).then_some(UNLIKE_SIGNATURE),
    }
}

/// Kinds, extra and result are equal; how many arguments a call has is no part of its signature.
fn is_like(carried: &Signature, known: &Signature) -> bool {
    (&carried.kinds, carried.extra, carried.result) == (&known.kinds, known.extra, known.result)
}

/// The bytes of a signature as they stand in a call behind the name.
pub fn bytes(signature: &Signature) -> Vec<u8> {
    let mut bytes = Vec::new();
    write::signature(&mut bytes, signature);
    bytes
}

/// The word and the bytes written of the call for signatures, which takes any bytes for a name and is lent so many.
pub fn answer(name: &[u8], lent: usize) -> (u64, Vec<u8>) {
    let refused = |number| {
        let refused = Outcome::Refused { number, record: 0 };
        (refused.word(0), Vec::new())
    };
    let Some(known) = std::str::from_utf8(name).ok().and_then(signature) else {
        return refused(UNKNOWN_FUNCTION);
    };
    let bytes = bytes(known);
    match bytes.len() <= lent {
        true => (Outcome::Accepted(known.result).word(bytes.len()), bytes),
        false => refused(5),
    }
}
