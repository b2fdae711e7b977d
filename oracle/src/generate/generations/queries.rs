//! Queries of any shape: with one generation's own function or with both, nested; with functions that both generations
//! have, or that the repository has; and with one call of a generation's own function that is another.

use super::{own_call, Fault, Judged};
use crate::answer::Outcome;
use crate::functions::{self, spelling::near_unknown};
use crate::generate::fault::unread;
use crate::generate::{Generator, Records};
use crate::generations::{shared, Generation};
use crate::page::record::{Kind, Record, Signature, Text};
use crate::page::{write, MAX_PAGE_BYTES, MAX_RECORDS};
use crate::refusal::{UNKNOWN_FUNCTION, UNLIKE_SIGNATURE};

const ADDITION: Record<'static> = Record::Binary {
    code: 1,
    modifier: None,
};

fn called<'r>(record: &'r Record) -> Option<&'r str> {
    match record {
        Record::Call { signature, .. } => Some(&signature.name.text),
        _ => None,
    }
}

/// The first call of a name that the table lacks.
fn first_unknown(generation: Generation, records: &[Record]) -> Fault {
    let lacks = |name: &str| !generation.table().contains_key(name);
    let place = records
        .iter()
        .position(|record| called(record).is_some_and(lacks))?;
    Some((UNKNOWN_FUNCTION, place))
}

fn is_of_page(records: &[Record]) -> bool {
    records.len() < MAX_RECORDS && write::page(records).len() < MAX_PAGE_BYTES / 2
}

/// A query that document 01 accepts, with the names that it calls.
fn judged(records: &[Record], kind: Kind) -> Judged {
    let faults = Generation::ALL.map(|generation| first_unknown(generation, records));
    Judged::new(write::page(records), Outcome::Accepted(kind), faults)
}

impl Generator<'_> {
    /// A query of which all functions are shared.
    fn shared_query(&mut self, kind: Kind, depth: usize) -> Records {
        self.table = shared();
        self.table_query(kind, depth)
    }

    /// Up to two such queries.
    pub(super) fn shared_context(&mut self) -> Records {
        self.table = shared();
        self.table_context()
    }

    /// Calls of these generations' own functions, in this order: each on the ones before, as its first argument or as
    /// one of its scalars, or beside them.
    fn smoothings(&mut self, generations: &[Generation]) -> Records {
        let Some((last, inner)) = generations.split_last() else {
            return self.shared_query(Kind::Vector, 1);
        };
        let place = self.random.below(4);
        if place == 3 && !inner.is_empty() {
            let mut records = self.smoothings(inner);
            records.extend(self.smoothings(&[*last]));
            records.push(ADDITION);
            return records;
        }
        let mut records = Records::new();
        for (argument, kind) in last.own().kinds.iter().enumerate() {
            match argument == place && !inner.is_empty() {
                true => records.extend(self.as_argument(inner, *kind)),
                false => records.extend(self.shared_query(*kind, 1)),
            }
        }
        records.push(own_call(*last));
        records.extend(self.over_a_vector());
        records
    }

    /// The calls as an argument of this kind, which is a matrix or a scalar.
    fn as_argument(&mut self, generations: &[Generation], kind: Kind) -> Records {
        let mut records = self.smoothings(generations);
        records.push(match kind {
            Kind::Matrix => Record::Subquery {
                range: self.duration(),
                step: None,
            },
            _ => {
                let signature = functions::signature("scalar").expect("a function of the table");
                Record::Call {
                    signature: signature.clone(),
                    arguments: 1,
                }
            }
        });
        records
    }

    /// Mostly nothing; or a record that takes a vector and leaves one.
    fn over_a_vector(&mut self) -> Records {
        match self.random.below(8) {
            0 => vec![Record::Paren],
            1 => vec![Record::Unary],
            2 => {
                let mut records = self.shared_query(Kind::Scalar, 1);
                records.push(ADDITION);
                records
            }
            _ => Records::new(),
        }
    }

    /// Such calls, and their kind; a scalar or a matrix now and then.
    fn smoothed(&mut self, generations: &[Generation]) -> (Records, Kind) {
        loop {
            let kind = *self
                .random
                .pick(&[Kind::Vector, Kind::Vector, Kind::Scalar, Kind::Matrix]);
            let records = match kind {
                Kind::Vector => self.smoothings(generations),
                _ => self.as_argument(generations, kind),
            };
            if is_of_page(&records) {
                return (records, kind);
            }
        }
    }

    pub(super) fn own_page(&mut self) -> Judged {
        let generation = *self.random.pick(&Generation::ALL);
        let depth = self.random.between(1, 5);
        let (records, kind) = self.smoothed(&vec![generation; depth]);
        judged(&records, kind)
    }

    /// Both generations' own functions, in any order.
    pub(super) fn mixed_page(&mut self) -> Judged {
        let mut generations = Generation::ALL.to_vec();
        for _ in 0..self.random.below(3) {
            let place = self.random.below(generations.len() + 1);
            generations.insert(place, *self.random.pick(&Generation::ALL));
        }
        if self.random.chance(50) {
            generations.reverse();
        }
        let (records, kind) = self.smoothed(&generations);
        judged(&records, kind)
    }

    pub(super) fn shared_page(&mut self) -> Judged {
        self.table = shared();
        let (records, kind) = self.table_records();
        judged(&records, kind)
    }

    /// Functions that the repository has: some of them are in neither document.
    pub(super) fn repository_page(&mut self) -> Judged {
        self.table = functions::table();
        let (records, kind) = self.table_records();
        judged(&records, kind)
    }

    /// One of a generation's own calls has another signature or a near name, with bytes behind it that neither check
    /// gets to.
    pub(super) fn altered_own_page(&mut self) -> Judged {
        let generation = *self.random.pick(&Generation::ALL);
        let depth = self.random.between(1, 4);
        let (mut records, kind) = self.smoothed(&vec![generation; depth]);
        let own = generation.own();
        let is_own = |record: &Record| called(record) == Some(&own.name.text);
        let places: Vec<usize> = (0..records.len())
            .filter(|place| is_own(&records[*place]))
            .collect();
        let place = *self.random.pick(&places);
        let number = *self.random.pick(&[UNKNOWN_FUNCTION, UNLIKE_SIGNATURE]);
        if let Record::Call { signature, .. } = &mut records[place] {
            *signature = self.altered(own, number);
        }
        let mut page = write::page(&records);
        if self.random.chance(30) {
            records.truncate(place + 1);
            page = write::page(&records);
            page.extend(unread(self.random));
        }
        let mut faults = Generation::ALL.map(|_| Some((UNKNOWN_FUNCTION, places[0])));
        faults[generation as usize] = Some((number, place));
        Judged::new(page, Outcome::Accepted(kind), faults)
    }

    fn altered(&mut self, own: &Signature<'static>, number: u8) -> Signature<'static> {
        match number {
            UNKNOWN_FUNCTION => {
                let near = near_unknown(&own.name.text);
                let name = Text::from(self.random.pick(&near).as_str());
                Signature {
                    name,
                    ..own.clone()
                }
            }
            _ => self.unlike_signature(own),
        }
    }
}
