//! Two calls of the generations' own functions on a page, as their tables have them: which is the first, and whether it
//! stands in the other; and as many as a page holds.

use super::super::Coverage;
use super::is_own;
use crate::answer::{Outcome, Worked};
use crate::functions;
use crate::generations::Generation;
use crate::page::record::Record;

/// Where the first call stands.
const RELATIONS: [&str; 2] = ["beside", "in"];

/// As many own calls as a page holds.
const MOST: usize = 63;

pub(super) fn classes() -> Vec<String> {
    let mut classes = Vec::new();
    for first in Generation::ALL {
        for second in Generation::ALL {
            classes.extend(RELATIONS.map(|relation| pair(first, relation, second)));
        }
        classes.push(most(first));
    }
    classes
}

fn pair(first: Generation, relation: &str, second: Generation) -> String {
    let [first, second] = [first, second].map(|generation| &generation.own().name.text);
    format!("generations: {first} {relation} {second}")
}

fn most(generation: Generation) -> String {
    let name = &generation.own().name.text;
    format!("generations: {MOST} times {name} on a page")
}

/// For each record the first one of the expression that it leaves.
fn starts(records: &[Record]) -> Vec<usize> {
    let mut stack: Vec<usize> = Vec::new();
    let mut starts = Vec::new();
    for (place, record) in records.iter().enumerate() {
        let kept = stack.len() - record.operands();
        let start = stack.get(kept).map_or(place, |first| *first);
        stack.truncate(kept);
        stack.push(start);
        starts.push(start);
    }
    starts
}

/// Whose own function a record calls, with its signature.
fn owner(record: &Record) -> Option<Generation> {
    let is_right = |generation: &Generation| {
        is_own(record, *generation) && functions::fault(generation.table(), record).is_none()
    };
    Generation::ALL.into_iter().find(is_right)
}

impl Coverage {
    /// On pages that document 01's check accepts.
    pub(super) fn own_pairs(&mut self, worked: &Worked) {
        let Outcome::Accepted(_) = worked.outcome else {
            return;
        };
        let numbered = worked.records.iter().enumerate();
        let own: Vec<(usize, Generation)> = numbered
            .filter_map(|(place, record)| Some((place, owner(record)?)))
            .collect();
        if own.len() < 2 {
            return;
        }
        let starts = starts(&worked.records);
        for pair_of in own.windows(2) {
            let [(place, first), (other, second)] = pair_of else {
                continue;
            };
            let is_inside = starts[*other] <= *place;
            let relation = RELATIONS[usize::from(is_inside)];
            self.hit(pair(*first, relation, *second));
        }
        if own.len() == MOST {
            self.hit(most(own[0].1));
        }
    }
}
