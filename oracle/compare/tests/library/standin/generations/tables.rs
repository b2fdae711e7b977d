//! Wrong tables for a generation, and signatures compared in part.

use oracle::functions::{self, signature};
use oracle::generations::Generation;
use oracle::page::record::{Extra, Kind, Record, Signature};
use oracle::refusal::{UNKNOWN_FUNCTION, UNLIKE_SIGNATURE};
use Generation::{Newer, Older};

pub type Known = Option<&'static Signature<'static>>;
pub type Rule = fn(&Record) -> Option<u8>;

/// Names that servers take with a flag only.
const EXPERIMENTAL: [&str; 5] = [
    "double_exponential_smoothing",
    "info",
    "mad_over_time",
    "sort_by_label",
    "sort_by_label_desc",
];

pub fn called<'r, 'a>(record: &'r Record<'a>) -> Option<&'r Signature<'a>> {
    match record {
        Record::Call { signature, .. } => Some(signature),
        _ => None,
    }
}

pub fn older(name: &str) -> Known {
    Older.table().get(name)
}

pub fn newer(name: &str) -> Known {
    Newer.table().get(name)
}

/// By another lookup.
fn by(record: &Record, found: impl Fn(&str) -> Known) -> Option<u8> {
    let carried = called(record)?;
    match found(&carried.name.text) {
        None => Some(UNKNOWN_FUNCTION),
        Some(known) => {
            let is_like = functions::bytes(carried) == functions::bytes(known);
            (!is_like).then_some(UNLIKE_SIGNATURE)
        }
    }
}

/// Without these names.
fn without(record: &Record, found: fn(&str) -> Known, names: &[&str]) -> Option<u8> {
    by(record, |name| {
        found(name).filter(|_| !names.contains(&name))
    })
}

/// With these names of the repository's table too.
fn with(record: &Record, found: fn(&str) -> Known, names: &[&str]) -> Option<u8> {
    let more = |name: &str| signature(name).filter(|_| names.contains(&name));
    by(record, |name| found(name).or_else(|| more(name)))
}

/// The right answer but where a call of this name carries a signature that the test lets by or refuses.
fn of_name(
    record: &Record,
    generation: Generation,
    is_meant: impl Fn(&str) -> bool,
    is_like: impl Fn(&Signature) -> bool,
) -> Option<u8> {
    match called(record) {
        Some(carried) if is_meant(&carried.name.text) => {
            (!is_like(carried)).then_some(UNLIKE_SIGNATURE)
        }
        _ => functions::fault(generation.table(), record),
    }
}

/// What the document shows of label_join.
fn has_five_kinds(carried: &Signature) -> bool {
    let kinds = [
        Kind::Vector,
        Kind::String,
        Kind::String,
        Kind::String,
        Kind::String,
    ];
    carried.kinds == kinds && carried.extra == Extra::Unlimited && carried.result == Kind::Vector
}

/// As the generation's own function has it, but for the extra and the result.
fn has_own_kinds(carried: &Signature) -> bool {
    carried.kinds == Older.own().kinds
}

fn is_own(name: &str) -> bool {
    Generation::ALL
        .iter()
        .any(|generation| generation.own().name.text == name)
}

/// One with optional arguments, as fixed.
fn is_fixed(carried: &Signature) -> bool {
    carried.extra == Extra::Fixed && carried.result == Kind::Vector
}

/// The right answer, with this number in the place of that.
fn put(record: &Record, generation: Generation, number: u8, other: u8) -> Option<u8> {
    let fault = functions::fault(generation.table(), record);
    fault.map(|fault| if fault == number { other } else { fault })
}

/// The faults, whose table they are in, and words for them.
#[rustfmt::skip]
pub const RULES: [(&str, Generation, Rule); 38] = [
    ("the repository's table for the older", Older, |record| by(record, signature)),
    ("the repository's table for the newer", Newer, |record| by(record, signature)),
    ("the newer's table for the older", Older, |record| by(record, newer)),
    ("the older's table for the newer", Newer, |record| by(record, older)),
    ("both own functions in the older", Older, |record| by(record, |name| older(name).or_else(|| newer(name)))),
    ("both own functions in the newer", Newer, |record| by(record, |name| newer(name).or_else(|| older(name)))),
    ("holt_winters missing in the older", Older, |record| without(record, older, &["holt_winters"])),
    ("double_exponential_smoothing missing in the newer", Newer, |record| {
        without(record, newer, &["double_exponential_smoothing"])
    }),
    ("info missing in the older", Older, |record| without(record, older, &["info"])),
    ("info missing in the newer", Newer, |record| without(record, newer, &["info"])),
    ("abs missing in the older", Older, |record| without(record, older, &["abs"])),
    ("year missing in the newer", Newer, |record| without(record, newer, &["year"])),
    ("experimental names missing in the older", Older, |record| without(record, older, &EXPERIMENTAL)),
    ("experimental names missing in the newer", Newer, |record| without(record, newer, &EXPERIMENTAL)),
    ("mad_over_time missing in the older", Older, |record| without(record, older, &["mad_over_time"])),
    ("sort_by_label_desc missing in the newer", Newer, |record| without(record, newer, &["sort_by_label_desc"])),
    ("ts_of_min_over_time in the newer", Newer, |record| with(record, newer, &["ts_of_min_over_time"])),
    ("ts_of_max_over_time in the newer", Newer, |record| with(record, newer, &["ts_of_max_over_time"])),
    ("ts_of_last_over_time in the newer", Newer, |record| with(record, newer, &["ts_of_last_over_time"])),
    ("ts_of_first_over_time in the older", Older, |record| with(record, older, &["ts_of_first_over_time"])),
    ("first_over_time in the older", Older, |record| with(record, older, &["first_over_time"])),
    ("max_of in the newer", Newer, |record| with(record, newer, &["max_of"])),
    ("start_timestamp in the older", Older, |record| with(record, older, &["start_timestamp"])),
    ("five kinds for label_join in the older", Older, |record| {
        of_name(record, Older, |name| name == "label_join", has_five_kinds)
    }),
    ("five kinds for label_join in the newer", Newer, |record| {
        of_name(record, Newer, |name| name == "label_join", has_five_kinds)
    }),
    ("extra and result of holt_winters not compared", Older, |record| {
        of_name(record, Older, |name| name == "holt_winters", has_own_kinds)
    }),
    ("extra and result of double_exponential_smoothing not compared", Newer, |record| {
        of_name(record, Newer, |name| name == "double_exponential_smoothing", has_own_kinds)
    }),
    ("any signature of holt_winters", Older, |record| of_name(record, Older, |name| name == "holt_winters", |_| true)),
    ("an own function by name in the newer, whosever", Newer, |record| of_name(record, Newer, is_own, has_own_kinds)),
    ("year fixed in the older", Older, |record| of_name(record, Older, |name| name == "year", is_fixed)),
    ("info fixed in the newer", Newer, |record| of_name(record, Newer, |name| name == "info", is_fixed)),
    ("37 for 38 in the older", Older, |record| put(record, Older, UNLIKE_SIGNATURE, UNKNOWN_FUNCTION)),
    ("37 for 38 in the newer", Newer, |record| put(record, Newer, UNLIKE_SIGNATURE, UNKNOWN_FUNCTION)),
    ("38 for 37 in the older", Older, |record| put(record, Older, UNKNOWN_FUNCTION, UNLIKE_SIGNATURE)),
    ("38 for 37 in the newer", Newer, |record| put(record, Newer, UNKNOWN_FUNCTION, UNLIKE_SIGNATURE)),
    ("no table for the older", Older, |_| None),
    ("no table for the newer", Newer, |_| None),
    ("names alone compared in the older", Older, |record| by(record, older).filter(|fault| *fault == UNKNOWN_FUNCTION)),
];
