//! @ and offset, ranges and steps.

use super::{places, replaced, spliced, varied, Change};
use crate::page::record::*;
use crate::page::{MAX_AT_MILLISECONDS, MAX_NUMBER};
use crate::random::Random;

pub const CHANGES: &[Change] = &[
    Change::other("offset 0s and -0s", |random, records| {
        offset(random, records, |_| Some([(false, 0), (true, 0)]))
    }),
    Change::other("an offset and its negative", |random, records| {
        offset(random, records, |&(is_minus, milliseconds)| {
            Some([(is_minus, milliseconds), (!is_minus, milliseconds)])
        })
    }),
    Change::other("an offset and a longer one", |random, records| {
        offset(random, records, |&(is_minus, milliseconds)| {
            let other = (milliseconds < MAX_NUMBER).then_some(milliseconds + 1)?;
            Some([(is_minus, milliseconds), (is_minus, other)])
        })
    }),
    Change::other("@ 0 and @ -0.001", |random, records| {
        at(random, records, |_| Some([At::After(0), At::Before(1)]))
    }),
    Change::other("@ -0.001 and @ -0.002", |random, records| {
        at(random, records, |_| Some([At::Before(1), At::Before(2)]))
    }),
    Change::other("@ start() and @ end()", |random, records| {
        at(random, records, |_| Some([At::Start, At::End]))
    }),
    Change::other("@ and a later one", |random, records| {
        at(random, records, later)
    }),
    Change::other("@ and its negative", |random, records| {
        at(random, records, |at| match at {
            At::After(time) if *time > 0 => Some([*at, At::Before(*time)]),
            _ => None,
        })
    }),
    Change::other("an offset and none", |random, records| {
        spliced(random, records, 1, |found| match found {
            [Record::Offset { .. }] => Some(Vec::new()),
            _ => None,
        })
    }),
    Change::other("@ and none", |random, records| {
        spliced(random, records, 1, |found| match found {
            [Record::At(_)] => Some(Vec::new()),
            _ => None,
        })
    }),
    Change::other("an offset below a subquery and on it", |random, records| {
        let offset = Record::Offset {
            is_minus: false,
            milliseconds: 1,
        };
        raised(random, records, offset)
    }),
    Change::other("@ below a subquery and on it", |random, records| {
        raised(random, records, Record::At(At::End))
    }),
    Change::other("a range and a longer one", |random, records| {
        replaced(random, records, |_, record| varied(record, range, longer))
    }),
    Change::other("a step and a longer one", |random, records| {
        replaced(random, records, |_, record| {
            varied(record, present_step, longer)
        })
    }),
    Change::other("no step and a step of 0s", |random, records| {
        let pair = |_: &Option<u64>| Some([None, Some(0)]);
        replaced(random, records, |_, record| varied(record, step, pair))
    }),
];

fn longer(milliseconds: &u64) -> Option<[u64; 2]> {
    let other = (*milliseconds < MAX_NUMBER).then_some(milliseconds + 1)?;
    Some([*milliseconds, other])
}

fn later(at: &At) -> Option<[At; 2]> {
    match *at {
        At::After(time) if time < MAX_AT_MILLISECONDS => Some([*at, At::After(time + 1)]),
        At::Before(time) if time > 1 => Some([*at, At::Before(time - 1)]),
        _ => None,
    }
}

fn offset<'a>(
    random: &mut Random,
    records: &mut [Record<'a>],
    pair: impl Fn(&(bool, u64)) -> Option<[(bool, u64); 2]>,
) -> Option<Vec<Record<'a>>> {
    replaced(random, records, |_, record| match record {
        Record::Offset {
            is_minus,
            milliseconds,
        } => {
            let [first, second] = pair(&(*is_minus, *milliseconds))?;
            (*is_minus, *milliseconds) = first;
            Some(Record::Offset {
                is_minus: second.0,
                milliseconds: second.1,
            })
        }
        _ => None,
    })
}

fn at<'a>(
    random: &mut Random,
    records: &mut [Record<'a>],
    pair: impl Fn(&At) -> Option<[At; 2]>,
) -> Option<Vec<Record<'a>>> {
    replaced(random, records, |_, record| varied(record, at_of, &pair))
}

fn at_of<'r>(record: &'r mut Record) -> Option<&'r mut At> {
    match record {
        Record::At(at) => Some(at),
        _ => None,
    }
}

fn range<'r>(record: &'r mut Record) -> Option<&'r mut u64> {
    match record {
        Record::Range(range) | Record::Subquery { range, .. } => Some(range),
        _ => None,
    }
}

fn step<'r>(record: &'r mut Record) -> Option<&'r mut Option<u64>> {
    match record {
        Record::Subquery { step, .. } => Some(step),
        _ => None,
    }
}

fn present_step<'r>(record: &'r mut Record) -> Option<&'r mut u64> {
    step(record)?.as_mut()
}

/// The time on a selector below a subquery, and on the subquery.
fn raised<'a>(
    random: &mut Random,
    records: &mut Vec<Record<'a>>,
    time: Record<'a>,
) -> Option<Vec<Record<'a>>> {
    let is_place = |place: &usize| {
        let pair = &records[*place..place + 2];
        matches!(pair, [Record::Selector { .. }, Record::Subquery { .. }])
    };
    let mut places = places(random, records.len().saturating_sub(1));
    let place = places.find(is_place)?;
    let mut second = records.clone();
    records.insert(place + 1, time.clone());
    second.insert(place + 2, time);
    Some(second)
}
