//! Spellings of one tree: the order of @ and offset, the modifier of a set operator, a negated number.

use super::{replaced, spliced, Change};
use crate::page::code::is_set_operator;
use crate::page::record::*;
use crate::random::Random;

pub const CHANGES: &[Change] = &[
    Change::same("@ and offset in the other order", other_order),
    Change::same("all @ and offset in the other order", all_in_other_order),
    Change::same("set operator, absent and one-to-one", |random, records| {
        set_operator(random, records, None, Some(Modifier::EMPTY))
    }),
    Change::same(
        "set operator, absent and many-to-many",
        |random, records| set_operator(random, records, None, Some(MANY_TO_MANY)),
    ),
    Change::same(
        "set operator, one-to-one and many-to-many",
        other_cardinality,
    ),
    Change::same("a number and two unary records on it", |random, records| {
        let unary = Record::Unary;
        spliced(random, records, 1, |found| match found {
            [number @ Record::Number(_)] => {
                Some(vec![number.clone(), unary.clone(), unary.clone()])
            }
            _ => None,
        })
    }),
    Change::same("a number, and unary on its negative", |random, records| {
        spliced(random, records, 1, |found| match found {
            [Record::Number(number)] => {
                let negative = Number::of_value(-number.value());
                Some(vec![Record::Number(negative), Record::Unary])
            }
            _ => None,
        })
    }),
    Change::same("NaN, and unary on NaN", |random, records| {
        let nan = Record::Number(Number::NaN);
        let place = records
            .iter()
            .position(|record| matches!(record, Record::Number(_)))?;
        records[place] = nan.clone();
        spliced(random, records, 1, |found| match found {
            [Record::Number(Number::NaN)] => Some(vec![nan.clone(), Record::Unary]),
            _ => None,
        })
    }),
];

const MANY_TO_MANY: Modifier = Modifier {
    cardinality: Cardinality::ManyToMany,
    ..Modifier::EMPTY
};

/// @ and offset of one expression.
fn are_times(pair: &[Record]) -> bool {
    matches!(
        pair,
        [Record::At(_), Record::Offset { .. }] | [Record::Offset { .. }, Record::At(_)]
    )
}

fn other_order<'a>(random: &mut Random, records: &mut Vec<Record<'a>>) -> Option<Vec<Record<'a>>> {
    spliced(random, records, 2, |found| match found {
        [first, second] if are_times(found) => Some(vec![second.clone(), first.clone()]),
        _ => None,
    })
}

fn all_in_other_order<'a>(
    _: &mut Random,
    records: &mut Vec<Record<'a>>,
) -> Option<Vec<Record<'a>>> {
    let mut second = records.clone();
    let mut place = 0;
    while place + 1 < second.len() {
        if are_times(&second[place..place + 2]) {
            second.swap(place, place + 1);
            place += 1;
        }
        place += 1;
    }
    (second != *records).then_some(second)
}

fn set_operator<'a>(
    random: &mut Random,
    records: &mut [Record<'a>],
    first: Option<Modifier<'a>>,
    second: Option<Modifier<'a>>,
) -> Option<Vec<Record<'a>>> {
    replaced(random, records, |_, record| match record {
        Record::Binary { code, modifier } if is_set_operator(*code) => {
            *modifier = first.clone();
            Some(Record::Binary {
                code: *code,
                modifier: second.clone(),
            })
        }
        _ => None,
    })
}

fn other_cardinality<'a>(
    random: &mut Random,
    records: &mut Vec<Record<'a>>,
) -> Option<Vec<Record<'a>>> {
    replaced(random, records, |_, record| match record {
        Record::Binary {
            code,
            modifier: Some(modifier),
        } if is_set_operator(*code) => {
            modifier.cardinality = Cardinality::OneToOne;
            let second = Modifier {
                cardinality: Cardinality::ManyToMany,
                ..modifier.clone()
            };
            Some(Record::Binary {
                code: *code,
                modifier: Some(second),
            })
        }
        _ => None,
    })
}
