//! Every form of @ and every sign of an offset, in either order and alone, on each expression that can have them; and
//! both of every length.

use super::super::{Generator, Made, Records};
use super::records;
use crate::answer::Outcome;
use crate::page::record::*;
use crate::page::{write, MAX_AT_MILLISECONDS, MAX_NUMBER};
use crate::times::{AtForm, OffsetForm, Timed, Times};

fn up() -> Record<'static> {
    Record::Selector {
        name: Text::from("up"),
        matchers: Vec::new(),
    }
}

/// `up`, with a range or a subquery on it.
fn expression(timed: Timed) -> (Records, Kind) {
    match timed {
        Timed::Selector => (vec![up()], Kind::Vector),
        Timed::Range => (vec![up(), Record::Range(300_000)], Kind::Matrix),
        Timed::Subquery => {
            let subquery = Record::Subquery {
                range: 300_000,
                step: None,
            };
            (vec![up(), subquery], Kind::Matrix)
        }
    }
}

fn page(timed: Timed, times: Records) -> Made {
    let (mut page, kind) = expression(timed);
    page.extend(times);
    Made::new(write::page(&page), Outcome::Accepted(kind))
}

/// Those of this expression.
fn of_every_form(timed: Timed) -> impl Iterator<Item = Made> {
    let forms = AtForm::ALL
        .into_iter()
        .flat_map(|at| OffsetForm::all().map(move |offset| (at, offset)));
    let both = forms.flat_map(move |(at, offset)| {
        Times::BOTH.map(|times| page(timed, records(times, at.with(1_500), offset.with(60_000))))
    });
    let at_alone = AtForm::ALL.map(|at| page(timed, vec![Record::At(at.with(1_500))]));
    let offset_alone = OffsetForm::all().map(move |offset| page(timed, vec![offset.with(60_000)]));
    both.chain(at_alone).chain(offset_alone)
}

/// The least and the greatest number of each count of bytes, up to this number.
fn of_every_length(most: u64) -> impl Iterator<Item = u64> {
    let starts = (0..8).map(|seven| 1u64 << (7 * seven));
    let ends = (1..8).map(|seven| (1u64 << (7 * seven)) - 1);
    starts
        .chain(ends)
        .filter(move |number| *number <= most)
        .chain([most])
}

/// Offsets of every length before an @ of two bytes and a long one; an @ of every length behind a short offset and a
/// long one.
fn lengths() -> impl Iterator<Item = Made> {
    let long_at = At::Before(MAX_AT_MILLISECONDS);
    let offsets = of_every_length(MAX_NUMBER)
        .flat_map(move |milliseconds| [At::End, long_at].map(|at| (at, milliseconds)));
    let ats = of_every_length(MAX_AT_MILLISECONDS)
        .flat_map(|milliseconds| [1, MAX_NUMBER].map(|offset| (At::After(milliseconds), offset)));
    offsets.chain(ats).map(|(at, milliseconds)| {
        let offset = Record::Offset {
            is_minus: true,
            milliseconds,
        };
        page(Timed::Selector, records(Times::OffsetAt, at, offset))
    })
}

pub(super) fn fixed() -> impl Iterator<Item = Made> {
    Timed::ALL
        .into_iter()
        .flat_map(of_every_form)
        .chain(lengths())
}

impl Generator<'_> {
    /// One of these forms, with times of any length.
    pub(super) fn timed_form(&mut self) -> Made {
        let timed = *self.random.pick(&Timed::ALL);
        let times = *self.random.pick(&Times::ALL);
        let forms: Vec<OffsetForm> = OffsetForm::all().collect();
        let milliseconds = 1 << self.random.below(50);
        let at = self.random.pick(&AtForm::ALL).with(milliseconds);
        let milliseconds = 1 << self.random.below(54);
        let offset = self.random.pick(&forms).with(milliseconds);
        page(timed, records(times, at, offset))
    }
}
