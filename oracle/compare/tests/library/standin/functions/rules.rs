//! Wrong rules for a call by itself: other names, and signatures compared in part.

use oracle::functions::{self, names, signature};
use oracle::page::record::{Extra, Record, Signature};
use oracle::refusal::{UNKNOWN_FUNCTION, UNLIKE_SIGNATURE};

pub type Rule = fn(&Record) -> Option<u8>;

/// What the repository's table has against a record.
pub fn fault(record: &Record) -> Option<u8> {
    functions::fault(functions::table(), record)
}

fn called<'r, 'a>(record: &'r Record<'a>) -> Option<&'r Signature<'a>> {
    match record {
        Record::Call { signature, .. } => Some(signature),
        _ => None,
    }
}

/// The table's signature by another lookup, and another comparison of the two.
fn judged(
    record: &Record,
    found: impl Fn(&str) -> Option<&'static Signature<'static>>,
    is_like: fn(&Signature, &Signature) -> bool,
) -> Option<u8> {
    let carried = called(record)?;
    match found(&carried.name.text) {
        None => Some(UNKNOWN_FUNCTION),
        Some(known) => (!is_like(carried, known)).then_some(UNLIKE_SIGNATURE),
    }
}

fn is_equal(one: &Signature, other: &Signature) -> bool {
    functions::bytes(one) == functions::bytes(other)
}

fn by_name(record: &Record, found: fn(&str) -> Option<&'static Signature<'static>>) -> Option<u8> {
    judged(record, found, is_equal)
}

fn by_signature(record: &Record, is_like: fn(&Signature, &Signature) -> bool) -> Option<u8> {
    judged(record, signature, is_like)
}

/// The first name of the table that is so.
fn first(is_found: impl Fn(&str) -> bool) -> Option<&'static Signature<'static>> {
    names().find(|name| is_found(name)).and_then(signature)
}

fn swapped(record: &Record) -> Option<u8> {
    fault(record).map(|number| UNKNOWN_FUNCTION + UNLIKE_SIGNATURE - number)
}

/// Compares an upper as unlimited.
fn without_upper(one: &Signature, other: &Signature) -> bool {
    let is_some = |extra: Extra| extra != Extra::Fixed;
    (&one.kinds, is_some(one.extra), one.result)
        == (&other.kinds, is_some(other.extra), other.result)
}

fn without_kinds(one: &Signature, other: &Signature) -> bool {
    (one.extra, one.result) == (other.extra, other.result)
}

fn without_extra(one: &Signature, other: &Signature) -> bool {
    (&one.kinds, one.result) == (&other.kinds, other.result)
}

fn without_result(one: &Signature, other: &Signature) -> bool {
    (&one.kinds, one.extra) == (&other.kinds, other.extra)
}

fn or_beginning(name: &str) -> Option<&'static Signature<'static>> {
    signature(name).or(first(|known| name.starts_with(known)))
}

fn or_older(name: &str) -> Option<&'static Signature<'static>> {
    match name {
        "holt_winters" => signature("double_exponential_smoothing"),
        _ => signature(name),
    }
}

/// The right answer, but for this number.
fn never(number: u8, record: &Record) -> Option<u8> {
    fault(record).filter(|fault| *fault != number)
}

/// The faults, with words for them.
#[rustfmt::skip]
pub const RULES: [(&str, Rule); 18] = [
    ("never 37 and 38", |_| None),
    ("37 and 38 swapped", swapped),
    ("every name known", |record| never(UNKNOWN_FUNCTION, record)),
    ("no name known", |record| called(record).map(|_| UNKNOWN_FUNCTION)),
    ("every signature like", |record| never(UNLIKE_SIGNATURE, record)),
    ("found by a beginning", |record| by_name(record, |name| first(|known| known.starts_with(name)))),
    ("a name and more found", |record| by_name(record, or_beginning)),
    ("capitals found", |record| by_name(record, |name| signature(&name.to_ascii_lowercase()))),
    ("the first name not found", |record| by_name(record, |name| signature(name).filter(|_| name != "abs"))),
    ("the last name not found", |record| by_name(record, |name| signature(name).filter(|_| name != "year"))),
    ("an older name found", |record| by_name(record, or_older)),
    ("kinds not compared", |record| by_signature(record, without_kinds)),
    ("kinds only counted", |record| by_signature(record, |one, other| {
        one.kinds.len() == other.kinds.len() && without_kinds(one, other)
    })),
    ("further kinds not compared", |record| by_signature(record, |one, other| {
        one.kinds.starts_with(&other.kinds) && without_kinds(one, other)
    })),
    ("missing kinds not compared", |record| by_signature(record, |one, other| {
        other.kinds.starts_with(&one.kinds) && without_kinds(one, other)
    })),
    ("extra not compared", |record| by_signature(record, without_extra)),
    ("an upper taken for unlimited", |record| by_signature(record, without_upper)),
    ("the result not compared", |record| by_signature(record, without_result)),
];
