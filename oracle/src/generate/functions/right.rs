//! Every function of the table with its signature: as few arguments as it takes, as many as it has kinds, as many as it
//! takes; and the literal exception.

use super::{call, declared, shortest};
use crate::functions;
use crate::generate::{Made, Records};
use crate::page::record::{Extra, Kind, Number, Record, Signature};
use crate::page::MAX_LIST;
use std::ops::RangeInclusive;

/// How many arguments a function takes, of those that a page can have.
pub fn counts(signature: &Signature) -> RangeInclusive<usize> {
    let declared = signature.kinds.len();
    let least = declared.saturating_sub(1);
    match signature.extra {
        Extra::Fixed => declared..=declared,
        Extra::Unlimited => least..=MAX_LIST as usize,
        Extra::Upper(upper) => least..=(least + upper as usize).min(MAX_LIST as usize),
    }
}

/// So many arguments of the kinds that are declared.
pub fn arguments(signature: &Signature, count: usize) -> Records {
    let kinds = (0..count).map_while(|place| declared(signature, place));
    kinds.flat_map(shortest).collect()
}

fn called(signature: &Signature<'static>, count: usize) -> Made {
    let mut records = arguments(signature, count);
    records.push(call(signature.clone(), count));
    Made::accepted(&records, signature.result)
}

/// The four functions of the literal exception with their signatures, on a literal that is excused.
fn excused() -> impl Iterator<Item = Made> {
    let literals = [Number::NaN, Number::Inf, Number::NegativeInf];
    let functions = ["exp", "ln", "log10", "log2"].into_iter();
    functions.flat_map(move |name| {
        let known = functions::signature(name).expect("a function of the table");
        literals.map(|literal| {
            let records = [Record::Number(literal), call(known.clone(), 1)];
            Made::accepted(&records, Kind::Vector)
        })
    })
}

pub(super) fn fixed() -> impl Iterator<Item = Made> {
    let pages = functions::signatures().flat_map(|signature| {
        let counts = counts(signature);
        let mut tried = vec![*counts.start(), signature.kinds.len(), *counts.end()];
        tried.dedup();
        tried.into_iter().map(|count| called(signature, count))
    });
    pages.chain(excused())
}
