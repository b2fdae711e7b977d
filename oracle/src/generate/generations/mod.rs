//! Calls for the two server generations (document 02, No. 13): every function of all three tables (`tables`), and the
//! one that each generation has by itself: with other signatures and arguments and under near names (`own`), two of
//! them on a page (`pairs`), among other records and faults (`order`), and in queries of any shape (`queries`).

mod order;
mod own;
mod pairs;
mod queries;
mod tables;

pub use pairs::pairs;

use super::functions::call;
use super::{Generator, Scope};
use crate::answer::Outcome;
use crate::generations::Generation;
use crate::hex;
use crate::page::record::{Kind, Record};
use crate::random::Random;
use crate::refusal::UNKNOWN_FUNCTION;

/// A page, and the outcomes that it was made for: with the older generation's table, and with the newer one's.
pub struct Judged {
    pub page: Vec<u8>,
    pub older: Outcome,
    pub newer: Outcome,
}

/// What a table has against a page: a number and its record.
type Fault = Option<(u8, usize)>;

impl Judged {
    /// Document 01's outcome with each table, unless that table refuses an earlier record, or the same one.
    fn new(page: Vec<u8>, outcome: Outcome, [older, newer]: [Fault; 2]) -> Self {
        let with = |fault: Fault| match (fault, outcome) {
            (Some((number, record)), Outcome::Accepted(_)) => Outcome::Refused { number, record },
            (Some((number, record)), Outcome::Refused { record: other, .. }) if record <= other => {
                Outcome::Refused { number, record }
            }
            _ => outcome,
        };
        Self {
            page,
            older: with(older),
            newer: with(newer),
        }
    }

    /// The same outcome with both tables.
    fn same(page: Vec<u8>, outcome: Outcome) -> Self {
        Self::new(page, outcome, [None, None])
    }
}

/// What the tables have against a call of a generation's own function at this record: its own table says this much, and
/// the other one does not know it.
fn own_faults(generation: Generation, number: Option<u8>, record: usize) -> [Fault; 2] {
    let own = number.map(|number| (number, record));
    let other = Some((UNKNOWN_FUNCTION, record));
    match generation {
        Generation::Older => [own, other],
        Generation::Newer => [other, own],
    }
}

/// The kind of a call and the name of a generation's own function, in notation.
fn named(generation: Generation) -> String {
    let name = generation.own().name.text.as_bytes();
    format!("0b{:02x}{}", name.len(), hex::text(name))
}

fn own_call(generation: Generation) -> Record<'static> {
    let own = generation.own();
    call(own.clone(), own.kinds.len())
}

/// Pages made for outcomes with both tables.
pub fn fixed() -> impl Iterator<Item = Judged> {
    let most = Generation::ALL.map(|generation| {
        let faults = own_faults(generation, None, 4);
        Judged::new(nested(generation), Outcome::Accepted(Kind::Vector), faults)
    });
    tables::fixed()
        .chain(own::fixed())
        .chain(pairs::fixed())
        .chain(order::fixed())
        .chain(most)
}

/// How many sorts of random pages there are.
pub const SORTS: usize = 15;

/// A page of any sort.
pub fn random(random: &mut Random) -> Judged {
    let sort = random.below(SORTS);
    of_sort(random, sort)
}

/// A page of this sort, so that a round can have some of each.
pub fn of_sort(random: &mut Random, sort: usize) -> Judged {
    let mut generator = Generator::new(random, 8, Scope::Patterns);
    match sort {
        0..=3 => generator.own_page(),
        4 => generator.mixed_page(),
        5 => generator.shared_page(),
        6 => generator.repository_page(),
        7 | 8 => generator.altered_own_page(),
        9 => generator.own_arguments(),
        10 => generator.own_fields(),
        11 => generator.join(),
        12 => generator.pair(),
        _ => generator.beside_own(),
    }
}

/// A generation's own call as the last record that a page may have or as the one behind it, or as many as there is room
/// for.
pub fn last(random: &mut Random) -> Judged {
    let generation = *random.pick(&Generation::ALL);
    match random.below(3) {
        0 => {
            let faults = own_faults(generation, None, 4);
            Judged::new(nested(generation), Outcome::Accepted(Kind::Vector), faults)
        }
        1 => order::at_limit(generation, 256, random.chance(50)),
        _ => order::at_limit(generation, 255, random.chance(50)),
    }
}

/// 63 nested calls of a generation's own function, each but the innermost on a subquery: as many as a page holds.
pub fn nested(generation: Generation) -> Vec<u8> {
    let call = format!("(000005)*2; {} 03020101000003", named(generation));
    hex::bytes(&format!("0202757000 0301 {call} (040100 {call})*62;"))
}
