//! Every function of a generation's table with its signature and with another, every function that the table lacks and
//! another one has, the literal exception, and label_join with the kinds that its document shows.

use super::super::functions::{needs_excuse, EXCUSED};
use super::super::Coverage;
use super::{called, outcome, words};
use crate::answer::{Outcome, Worked};
use crate::functions;
use crate::generations::Generation;
use crate::page::record::{Record, Signature};
use crate::refusal::{UNKNOWN_FUNCTION, UNLIKE_SIGNATURE};

/// It shows one kind more than the repository counts.
const JOIN: &str = "label_join";

pub(super) fn classes() -> Vec<String> {
    let mut classes = Vec::new();
    for generation in Generation::ALL {
        for name in generation.table().keys() {
            classes.extend([true, false].map(|is_like| known(generation, name, is_like)));
        }
        classes.extend(lacking(generation).map(|known| lacked(generation, &known.name.text)));
        for name in EXCUSED {
            classes.extend([true, false].map(|is_like| excused(generation, name, is_like)));
        }
        classes.extend([true, false].map(|is_shown| joined(generation, is_shown)));
    }
    classes
}

/// What another table has: the repository's, or the other generation's.
fn lacking(generation: Generation) -> impl Iterator<Item = &'static Signature<'static>> {
    let others = functions::signatures().chain([generation.other().own()]);
    let mut lacking: Vec<&Signature> = others
        .filter(|each| !generation.table().contains_key(each.name.text.as_ref()))
        .collect();
    lacking.dedup();
    lacking.into_iter()
}

fn known(generation: Generation, name: &str, is_like: bool) -> String {
    let words = words(generation);
    let signature = ["with another signature", "as its table has it"][usize::from(is_like)];
    format!("generations: {words}, {name} {signature}")
}

fn lacked(generation: Generation, name: &str) -> String {
    let words = words(generation);
    format!("generations: {words} lacks {name}, which another table has so")
}

fn excused(generation: Generation, name: &str, is_like: bool) -> String {
    let words = words(generation);
    let signature = ["another signature", "its table's"][usize::from(is_like)];
    format!("generations: {words}, {name} of an excused literal, {signature}")
}

fn joined(generation: Generation, is_shown: bool) -> String {
    let words = words(generation);
    let kinds = ["of five with four kinds", "of five with five kinds"][usize::from(is_shown)];
    format!("generations: {words}, {JOIN} {kinds}")
}

/// Kinds, extra and result.
fn has_signature(carried: &Signature, known: &Signature) -> bool {
    functions::bytes(carried) == functions::bytes(known)
}

impl Coverage {
    pub(super) fn generation_names(&mut self, worked: &Worked, generation: Generation) {
        match outcome(worked, generation) {
            Outcome::Accepted(_) => self.known_names(worked, generation),
            Outcome::Refused { number, record } => {
                let Some(carried) = worked.records.get(record).and_then(called) else {
                    return;
                };
                match number {
                    UNKNOWN_FUNCTION => self.lacked_name(carried, generation),
                    UNLIKE_SIGNATURE => self.unlike_name(worked, record, generation),
                    _ => {}
                }
            }
        }
    }

    fn known_names(&mut self, worked: &Worked, generation: Generation) {
        for (place, record) in worked.records.iter().enumerate() {
            let Some(carried) = called(record) else {
                continue;
            };
            let name = carried.name.text.as_ref();
            self.hit(known(generation, name, true));
            if needs_excuse(&worked.records[..=place]) {
                self.hit(excused(generation, name, true));
            }
            let is_five = matches!(record, Record::Call { arguments: 5, .. });
            self.hit_if(name == JOIN && is_five, &joined(generation, false));
        }
    }

    fn lacked_name(&mut self, carried: &Signature, generation: Generation) {
        let name = carried.name.text.as_ref();
        let mut lacking = lacking(generation);
        let known = lacking.find(|known| known.name.text == name);
        if known.is_some_and(|known| has_signature(carried, known)) {
            self.hit(lacked(generation, name));
        }
    }

    fn unlike_name(&mut self, worked: &Worked, record: usize, generation: Generation) {
        let refused = &worked.records[record];
        let Some(carried) = called(refused) else {
            return;
        };
        let name = carried.name.text.as_ref();
        self.hit(known(generation, name, false));
        if EXCUSED.contains(&name) && needs_excuse(&worked.records[..=record]) {
            self.hit(excused(generation, name, false));
        }
        let is_five = matches!(refused, Record::Call { arguments: 5, .. });
        let shown = &generation.functions()[name].shown;
        let is_shown = shown.kinds().eq(carried.kinds.iter().copied());
        let is_join = name == JOIN && is_five && is_shown;
        self.hit_if(is_join, &joined(generation, true));
    }
}
