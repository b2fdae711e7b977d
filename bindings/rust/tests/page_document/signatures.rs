//! The function table of the document: the signatures of all functions that the Rust has.

use crate::document::{bytes, quoted, rows};
use sandzguli::page::{Signature, Variadic};
use sandzguli::{signature, signature_into, Kind, SIGNATURE_BYTES};
use std::collections::BTreeSet;

const RUST: &str = include_str!("../../../../oracle/promql-parser/src/parser/function.rs");

/// The names of the Rust's table, each the first text after `function!(`.
fn names() -> BTreeSet<&'static str> {
    let (_, table) = RUST.split_once("static ref FUNCTIONS").expect("the table");
    let rows = table.split(" function!(").skip(1);
    rows.filter_map(|row| row.split('"').nth(1)).collect()
}

/// The document's words for a signature's kinds, extra and result.
fn words(signature: &Signature) -> [String; 3] {
    let kinds: Vec<_> = signature.kinds.iter().map(Kind::to_string).collect();
    let kinds = match kinds.as_slice() {
        [] => "none".to_string(),
        kinds => kinds.join(", "),
    };
    let extra = match signature.variadic {
        Variadic::Fixed => "fixed".to_string(),
        Variadic::Unlimited => "unlimited".to_string(),
        Variadic::UpTo(upper) => format!("upper {upper}"),
    };
    [kinds, extra, signature.result.to_string()]
}

/// In words and in bytes.
#[test]
fn functions_have_their_signatures() {
    let mut found = BTreeSet::new();
    for [notation, kinds, extra, result, functions] in
        rows(["Signature", "Kinds", "Extra", "Result", "Functions"])
    {
        for function in quoted(functions) {
            let mut out = [0; SIGNATURE_BYTES];
            let written = signature_into(function, &mut out).expect(function);
            assert_eq!(
                out[..written.bytes],
                bytes(quoted(notation)[0]),
                "{function}"
            );
            let signature = signature(function).expect(function);
            assert_eq!(words(&signature), [kinds, extra, result], "{function}");
            assert!(found.insert(function), "{function} stands twice");
        }
    }
    assert_eq!(found, names());
}
