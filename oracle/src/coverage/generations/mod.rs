//! The two server generations (document 02, No. 13): the outcomes with both tables and the answers (`outcomes`), every
//! function that a table has or lacks (`names`), each generation's own function (`own`), two of these on a page
//! (`pairs`), and what comes before and behind it (`order`).

mod names;
mod order;
mod outcomes;
mod own;
mod pairs;

use super::Coverage;
use crate::answer::{Outcome, Worked};
use crate::generations::Generation;
use crate::page::record::{Record, Signature};

pub(super) fn classes() -> Vec<String> {
    [
        outcomes::classes(),
        names::classes(),
        own::classes(),
        pairs::classes(),
        order::classes(),
    ]
    .concat()
}

/// The outcome with a generation's table.
fn outcome(worked: &Worked, generation: Generation) -> Outcome {
    match generation {
        Generation::Older => worked.older,
        Generation::Newer => worked.newer,
    }
}

fn words(generation: Generation) -> &'static str {
    match generation {
        Generation::Older => "older",
        Generation::Newer => "newer",
    }
}

fn called<'w, 'a>(record: &'w Record<'a>) -> Option<&'w Signature<'a>> {
    match record {
        Record::Call { signature, .. } => Some(signature),
        _ => None,
    }
}

/// Whether the record is a call of a generation's own function.
fn is_own(record: &Record, generation: Generation) -> bool {
    called(record).is_some_and(|carried| carried.name.text == generation.own().name.text)
}

impl Coverage {
    pub(super) fn generations(&mut self, worked: &Worked) {
        self.generation_answer(worked);
        for generation in Generation::ALL {
            self.generation_outcome(worked, generation);
            self.generation_names(worked, generation);
            self.own_function(worked, generation);
            self.own_order(worked, generation);
        }
        self.own_pairs(worked);
    }
}
