//! Every function of the three tables, as the repository or the older generation has it; label_join with the kinds that
//! the documents show; and what other checks excuse and refuse.

use super::{Fault, Judged};
use crate::answer::Outcome;
use crate::functions::{self, Table};
use crate::generate::functions::{arguments, call, counts};
use crate::generate::{Generator, Records};
use crate::generations::{self, Generation};
use crate::hex;
use crate::page::record::{Kind, Signature};
use crate::page::write;
use crate::refusal::{UNKNOWN_FUNCTION, UNLIKE_SIGNATURE};

/// The functions of all three tables.
fn known() -> impl Iterator<Item = &'static Signature<'static>> {
    functions::signatures().chain([Generation::Older.own()])
}

/// A call with its signature at this record: 37 of each table that lacks the name.
fn lacking(name: &str, record: usize) -> [Fault; 2] {
    let fault = |table: &Table| match table.contains_key(name) {
        true => None,
        false => Some((UNKNOWN_FUNCTION, record)),
    };
    Generation::ALL.map(|generation| fault(generation.table()))
}

/// As few arguments as it takes, as many as it has kinds, as many as it takes.
fn right() -> impl Iterator<Item = Judged> {
    known().flat_map(|signature| {
        let counts = counts(signature);
        let mut tried = vec![*counts.start(), signature.kinds.len(), *counts.end()];
        tried.dedup();
        tried.into_iter().map(|count| {
            let mut records = arguments(signature, count);
            let faults = lacking(&signature.name.text, records.len());
            records.push(call(signature.clone(), count));
            let outcome = Outcome::Accepted(signature.result);
            Judged::new(write::page(&records), outcome, faults)
        })
    })
}

/// The functions of the literal exception, which both generations have, on an excused literal: with their signature,
/// with another result, and unlimited.
fn excused() -> impl Iterator<Item = Judged> {
    let names = ["0b03657870", "0b026c6e", "0b056c6f673130", "0b046c6f6732"].into_iter();
    let unlike = Outcome::Refused {
        number: UNLIKE_SIGNATURE,
        record: 1,
    };
    names.flat_map(move |name| {
        [
            ("0100 00 00 01", Outcome::Accepted(Kind::Vector)),
            ("0100 00 01 01", unlike),
            ("0100 01 00 01", unlike),
        ]
        .map(|(carried, outcome)| {
            let page = hex::bytes(&format!("0002 {name} {carried}"));
            Judged::same(page, outcome)
        })
    })
}

/// label_join of five arguments behind other records, with as many kinds as the repository counts, and as the documents
/// show.
fn joined(before: &Records, kinds: usize) -> Judged {
    let known = &generations::shared()["label_join"];
    let mut carried = known.clone();
    carried.kinds.resize(kinds, Kind::String);
    let mut records = before.clone();
    records.extend(arguments(known, 5));
    let record = records.len();
    let fault = (carried != *known).then_some((UNLIKE_SIGNATURE, record));
    records.push(call(carried, 5));
    let behind = records.len();
    let outcome = match before.as_slice() {
        [] => Outcome::Accepted(Kind::Vector),
        _ => Outcome::Refused {
            number: 2,
            record: behind,
        },
    };
    Judged::new(write::page(&records), outcome, [fault, fault])
}

/// limitk and limit_ratio with parameters that the operators document refuses: 42 is of another check.
fn limits() -> impl Iterator<Item = Judged> {
    let parameters = ["010161", "0202757000", "0202757000 0301"].into_iter();
    parameters.flat_map(|parameter| {
        ["1d", "1e"].map(|code| {
            let page = hex::bytes(&format!("{parameter} 0202757000 0a{code}0002"));
            Judged::same(page, Outcome::Accepted(Kind::Vector))
        })
    })
}

pub(super) fn fixed() -> impl Iterator<Item = Judged> {
    let joined = [4, 5].map(|kinds| joined(&Records::new(), kinds));
    right().chain(excused()).chain(limits()).chain(joined)
}

impl Generator<'_> {
    /// label_join of five arguments, by itself or behind other queries.
    pub(super) fn join(&mut self) -> Judged {
        let before = self.shared_context();
        joined(&before, self.random.between(4, 5))
    }
}
