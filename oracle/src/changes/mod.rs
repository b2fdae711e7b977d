//! Pairs of pages that differ in one thing (document 02, No. 14): in their spelling, which the checked tree does not
//! show (`spelling`), or in one field of it (`numbers`, `times`, `selectors`, `operators`, `lists`, `calls`) or one
//! node (`nodes`). Whether both pages pass is another question.

mod calls;
mod lists;
mod nodes;
mod numbers;
mod operators;
mod selectors;
mod spelling;
mod times;

use crate::page::record::Record;
use crate::random::Random;

/// Makes the second page of a pair; the first one may be altered for it. Nothing where the page has no place for it.
type Make = for<'a> fn(&mut Random, &mut Vec<Record<'a>>) -> Option<Vec<Record<'a>>>;

pub struct Change {
    pub words: &'static str,
    /// Whether both pages have one tree, if both pass.
    pub is_same: bool,
    make: Make,
}

impl Change {
    /// Another tree.
    const fn other(words: &'static str, make: Make) -> Self {
        Self {
            words,
            is_same: false,
            make,
        }
    }

    /// Another spelling of the same tree.
    const fn same(words: &'static str, make: Make) -> Self {
        Self {
            words,
            is_same: true,
            make,
        }
    }

    /// Two lists of records made of this one.
    pub fn pair<'a>(
        &self,
        random: &mut Random,
        records: &[Record<'a>],
    ) -> Option<[Vec<Record<'a>>; 2]> {
        let mut first = records.to_vec();
        let second = (self.make)(random, &mut first)?;
        Some([first, second])
    }
}

pub fn all() -> impl Iterator<Item = &'static Change> {
    [
        spelling::CHANGES,
        numbers::CHANGES,
        times::CHANGES,
        selectors::CHANGES,
        operators::CHANGES,
        lists::CHANGES,
        calls::CHANGES,
        nodes::CHANGES,
    ]
    .into_iter()
    .flatten()
}

/// The places of a list, from one at random on.
fn places(random: &mut Random, length: usize) -> impl Iterator<Item = usize> {
    let first = random.below(length.max(1));
    (first..length).chain(0..first.min(length))
}

/// Another record in the place of one, the first from a random place on for which there is another.
fn replaced<'a>(
    random: &mut Random,
    records: &mut [Record<'a>],
    other: impl Fn(&mut Random, &mut Record<'a>) -> Option<Record<'a>>,
) -> Option<Vec<Record<'a>>> {
    for place in places(random, records.len()) {
        if let Some(other) = other(random, &mut records[place]) {
            let mut second = records.to_vec();
            second[place] = other;
            return Some(second);
        }
    }
    None
}

/// Two values in one place of a record: the second one's record.
fn varied<'a, T>(
    record: &mut Record<'a>,
    part: impl for<'r> Fn(&'r mut Record<'a>) -> Option<&'r mut T>,
    pair: impl Fn(&T) -> Option<[T; 2]>,
) -> Option<Record<'a>> {
    let [first, second] = pair(part(record)?)?;
    let mut other = record.clone();
    *part(record)? = first;
    *part(&mut other)? = second;
    Some(other)
}

/// Others in the place of so many records, the first from a random place on for which there are others.
fn spliced<'a>(
    random: &mut Random,
    records: &[Record<'a>],
    length: usize,
    others: impl Fn(&[Record<'a>]) -> Option<Vec<Record<'a>>>,
) -> Option<Vec<Record<'a>>> {
    let places = places(random, (records.len() + 1).saturating_sub(length));
    for place in places {
        if let Some(others) = others(&records[place..place + length]) {
            let mut second = records.to_vec();
            second.splice(place..place + length, others);
            return Some(second);
        }
    }
    None
}
