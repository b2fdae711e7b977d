//! Each generation's own function: every way of another signature, near names, and what document 01 says of its
//! arguments.

use super::super::Coverage;
use super::{called, is_own, outcome};
use crate::answer::{Outcome, Worked};
use crate::functions::near::{unlike, Unlike};
use crate::functions::spelling::Spelling;
use crate::generations::Generation;
use crate::operators::operands;
use crate::page::record::Kind;
use crate::refusal::{UNKNOWN_FUNCTION, UNLIKE_SIGNATURE};

/// What document 01 says of the call.
const COUNTS: [&str; 2] = ["26 of fewer arguments", "26 of more arguments"];
const MISSING: &str = "2 of missing operands";

pub(super) fn classes() -> Vec<String> {
    let mut classes = Vec::new();
    for generation in Generation::ALL {
        classes.extend(Unlike::ALL.map(|way| of_own(generation, way.words())));
        classes.extend(Spelling::NEAR.map(|way| near(generation, way)));
        classes.extend(COUNTS.map(|words| of_own(generation, words)));
        classes.push(of_own(generation, MISSING));
        let places = 0..generation.own().kinds.len();
        classes.extend(places.map(|place| of_own(generation, &wrong(place))));
    }
    classes
}

fn of_own(generation: Generation, words: &str) -> String {
    let name = &generation.own().name.text;
    format!("generations: {name}, {words}")
}

fn near(generation: Generation, spelling: Spelling) -> String {
    let name = &generation.own().name.text;
    format!("generations: a name near {name}, {}", spelling.words())
}

fn wrong(place: usize) -> String {
    format!("30 of argument {}", place + 1)
}

impl Coverage {
    pub(super) fn own_function(&mut self, worked: &Worked, generation: Generation) {
        let Outcome::Refused { number, record } = outcome(worked, generation) else {
            return;
        };
        let Some(refused) = worked.records.get(record) else {
            return;
        };
        let (own, Some(carried)) = (generation.own(), called(refused)) else {
            return;
        };
        if number == UNKNOWN_FUNCTION {
            let is_near = |way: &Spelling| way.is_near(&own.name.text, &carried.name.text);
            for way in Spelling::NEAR.into_iter().filter(is_near) {
                self.hit(near(generation, way));
            }
        }
        if !is_own(refused, generation) {
            return;
        }
        match number {
            UNLIKE_SIGNATURE => {
                if let Some(way) = unlike(carried, own) {
                    self.hit(of_own(generation, way.words()));
                }
            }
            2 => self.hit(of_own(generation, MISSING)),
            26 => {
                let is_more = refused.operands() > own.kinds.len();
                self.hit(of_own(generation, COUNTS[usize::from(is_more)]));
            }
            30 => self.wrong_kind(worked, generation, record),
            _ => {}
        }
    }

    /// The first argument of another kind than is declared, by the kinds that the Rust gave.
    fn wrong_kind(&mut self, worked: &Worked, generation: Generation, record: usize) {
        let places = operands(&worked.records, record).unwrap_or_default();
        let given = places.iter().map(|place| worked.kinds[*place]);
        let declared = generation.own().kinds.iter().copied();
        let is_other = |(given, declared): (Kind, Kind)| given != declared;
        if let Some(place) = given.zip(declared).position(is_other) {
            self.hit(of_own(generation, &wrong(place)));
        }
    }
}
