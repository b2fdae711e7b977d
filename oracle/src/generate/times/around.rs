//! Expressions with times under, before and behind every record that takes them or may stand there; two of them below
//! and on a subquery, and on both sides of an operator.

use super::super::{Generator, Made};
use crate::answer::Outcome;
use crate::hex;
use crate::page::record::Kind;
use crate::times::Times;

/// `up` with these times, of `end()` and 1 ms.
fn timed(times: Times) -> &'static str {
    match times {
        Times::Offset => "0202757000 060001",
        Times::At => "0202757000 0501",
        Times::AtOffset => "0202757000 0501 060001",
        Times::OffsetAt => "0202757000 060001 0501",
    }
}

/// The same times on what stands before them.
fn times_alone(times: Times) -> &'static str {
    &timed(times)["0202757000".len()..]
}

/// Records before and behind `up` with its times, and the kind.
type Around = (&'static str, &'static str, Kind);

#[rustfmt::skip]
const AROUND: &[Around] = &[
    ("", "08", Kind::Vector), ("", "07", Kind::Vector), ("", "0807", Kind::Vector), ("", "0708", Kind::Vector),
    ("", "040100", Kind::Matrix), ("", "0a1b0001", Kind::Vector), ("", "0a1b01010178 01", Kind::Vector),
    ("", "0b01660100000001", Kind::Vector), ("", "0202757000 090100", Kind::Vector),
    ("0202757000", "090100", Kind::Vector), ("", "000001 090100", Kind::Vector), ("", "000007 07 090100", Kind::Vector),
    ("000001", "090100", Kind::Vector), ("00000507", "090100", Kind::Vector), ("", "00000507 090100", Kind::Vector),
    ("0202757000", "090600", Kind::Vector), ("0202757000", "0907010000000000", Kind::Vector),
    ("0202757000", "090a010000030000", Kind::Vector), ("000001", "0a180002", Kind::Vector),
    ("", "010161 0b01660200030000 02", Kind::Vector), ("010161", "0a140002", Kind::Vector),
    ("", "000001 0b01660200010000 02", Kind::Vector), ("", "0202757000 0b01660200000000 02", Kind::Vector),
    ("", "0b026e6f 00000000 090100", Kind::Vector), ("0202757000 040100", "0b01660202000000 02", Kind::Vector),
];

fn surrounded((before, after, kind): &Around, times: Times) -> Made {
    let page = hex::bytes(&format!("{before} {} {after}", timed(times)));
    Made::new(page, Outcome::Accepted(*kind))
}

/// Below a subquery and on it, which is another expression.
fn nested(below: Times, on: Times) -> Made {
    let page = format!("{} 040100 {}", timed(below), times_alone(on));
    Made::new(hex::bytes(&page), Outcome::Accepted(Kind::Matrix))
}

/// On both sides of `+`.
fn added(left: Times, right: Times) -> Made {
    let page = format!("{} {} 090100", timed(left), timed(right));
    Made::new(hex::bytes(&page), Outcome::Accepted(Kind::Vector))
}

pub(super) fn fixed() -> impl Iterator<Item = Made> {
    let all = Times::ALL.into_iter();
    all.flat_map(|times| {
        let surrounded = AROUND.iter().map(move |around| surrounded(around, times));
        let nested = Times::ALL.map(|on| nested(times, on));
        let added = Times::ALL.map(|right| added(times, right));
        surrounded.chain(nested).chain(added)
    })
}

impl Generator<'_> {
    pub(super) fn timed_around(&mut self) -> Made {
        let [times, other] = [0; 2].map(|_| *self.random.pick(&Times::ALL));
        match self.random.below(4) {
            0 => nested(times, other),
            1 => added(times, other),
            _ => surrounded(self.random.pick(AROUND), times),
        }
    }
}
