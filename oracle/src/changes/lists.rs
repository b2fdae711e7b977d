//! The labels of operators and aggregators: lists, of which the order and double entries count.

use super::numbers::longer;
use super::{places, replaced, Change};
use crate::page::record::*;
use crate::page::MAX_LIST;
use crate::random::Random;

pub const CHANGES: &[Change] = &[
    Change::other("labels in another order", |random, records| {
        labels(random, records, |random, labels| {
            let mut places = places(random, labels.len().saturating_sub(1));
            let place = places.find(|place| labels[*place].text != labels[place + 1].text)?;
            labels.swap(place, place + 1);
            Some(())
        })
    }),
    Change::other("a label and the same twice", |random, records| {
        labels(random, records, |random, labels| {
            let place = places(random, labels.len()).next()?;
            let has_room = (labels.len() as u64) < MAX_LIST;
            has_room.then(|| labels.insert(place, labels[place].clone()))
        })
    }),
    Change::other("a label and none", |random, records| {
        labels(random, records, |random, labels| {
            let place = places(random, labels.len()).next()?;
            labels.remove(place);
            Some(())
        })
    }),
    Change::other("a label and a longer one", |random, records| {
        labels(random, records, |random, labels| {
            let place = places(random, labels.len()).next()?;
            labels[place] = longer(&labels[place])?;
            Some(())
        })
    }),
];

/// The lists of a record.
fn lists<'r, 'a>(record: &'r mut Record<'a>) -> Vec<&'r mut Labels<'a>> {
    let mut lists = Vec::new();
    match record {
        Record::Binary {
            modifier: Some(modifier),
            ..
        } => {
            if let Matching::On(labels) | Matching::Ignoring(labels) = &mut modifier.matching {
                lists.push(labels);
            }
            if let Cardinality::GroupLeft(labels) | Cardinality::GroupRight(labels) =
                &mut modifier.cardinality
            {
                lists.push(labels);
            }
        }
        Record::Aggregate {
            grouping: Grouping::By(labels) | Grouping::Without(labels),
            ..
        } => lists.push(labels),
        _ => {}
    }
    lists
}

fn labels<'a>(
    random: &mut Random,
    records: &mut [Record<'a>],
    change: impl Fn(&mut Random, &mut Labels<'a>) -> Option<()>,
) -> Option<Vec<Record<'a>>> {
    replaced(random, records, |random, record| {
        let mut other = record.clone();
        let mut lists = lists(&mut other);
        let place = places(random, lists.len()).next()?;
        change(random, lists[place])?;
        Some(other)
    })
}
