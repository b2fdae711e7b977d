//! Operators and aggregators with their modifiers: absent and empty ones.

use super::numbers::modifier;
use super::{replaced, varied, Change};
use crate::page::code::is_set_operator;
use crate::page::record::*;
use crate::random::Random;

pub const CHANGES: &[Change] = &[
    Change::other("an operator and another", |random, records| {
        replaced(random, records, |_, record| varied(record, operator, next))
    }),
    Change::other("an aggregator and another", |random, records| {
        replaced(random, records, |_, record| {
            varied(record, aggregator, next)
        })
    }),
    Change::other("no modifier and an empty one", |random, records| {
        replaced(random, records, |_, record| {
            varied(record, plain_modifier, |_| {
                Some([None, Some(Modifier::EMPTY)])
            })
        })
    }),
    Change::other("bool and not", |random, records| {
        replaced(random, records, |_, record| {
            varied(record, is_bool, |_| Some([false, true]))
        })
    }),
    Change::other("no matching and ignoring ()", |random, records| {
        matching(random, records, |_| {
            [Matching::None, Matching::Ignoring(Vec::new())]
        })
    }),
    Change::other("no matching and on ()", |random, records| {
        matching(random, records, |_| {
            [Matching::None, Matching::On(Vec::new())]
        })
    }),
    Change::other("on and ignoring of the same labels", |random, records| {
        matching(random, records, |labels| {
            [Matching::On(labels.clone()), Matching::Ignoring(labels)]
        })
    }),
    Change::other(
        "one-to-one and many-to-many, no set operator",
        |random, records| {
            cardinality(random, records, |_| {
                [Cardinality::OneToOne, Cardinality::ManyToMany]
            })
        },
    ),
    Change::other("one-to-one and group_left ()", |random, records| {
        cardinality(random, records, |_| {
            [Cardinality::OneToOne, Cardinality::GroupLeft(Vec::new())]
        })
    }),
    Change::other(
        "group_left and group_right of the same labels",
        |random, records| {
            cardinality(random, records, |labels| {
                [
                    Cardinality::GroupLeft(labels.clone()),
                    Cardinality::GroupRight(labels),
                ]
            })
        },
    ),
    Change::other("no fill and a fill of 0", |random, records| {
        fills(
            random,
            records,
            [(None, None), (Some(Number::Whole(0)), None)],
        )
    }),
    Change::other("no fill and a fill of NaN", |random, records| {
        fills(random, records, [(None, None), (None, Some(Number::NaN))])
    }),
    Change::other("a fill on the left and on the right", |random, records| {
        let fill = Some(Number::Whole(0));
        fills(random, records, [(fill, None), (None, fill)])
    }),
    Change::other("no grouping and by ()", |random, records| {
        grouping(random, records, |_| {
            [Grouping::None, Grouping::By(Vec::new())]
        })
    }),
    Change::other("no grouping and without ()", |random, records| {
        grouping(random, records, |_| {
            [Grouping::None, Grouping::Without(Vec::new())]
        })
    }),
    Change::other("by and without of the same labels", |random, records| {
        grouping(random, records, |labels| {
            [Grouping::By(labels.clone()), Grouping::Without(labels)]
        })
    }),
];

/// The code and the one behind it; behind the last one of each sort the one before it.
fn next(code: &u8) -> Option<[u8; 2]> {
    match code {
        16 | 30 => Some([*code, code - 1]),
        _ => Some([*code, code + 1]),
    }
}

fn operator<'r>(record: &'r mut Record) -> Option<&'r mut u8> {
    match record {
        Record::Binary { code, .. } => Some(code),
        _ => None,
    }
}

fn aggregator<'r>(record: &'r mut Record) -> Option<&'r mut u8> {
    match record {
        Record::Aggregate { code, .. } => Some(code),
        _ => None,
    }
}

/// Of an operator that the check gives none.
fn plain_modifier<'r, 'a>(record: &'r mut Record<'a>) -> Option<&'r mut Option<Modifier<'a>>> {
    match record {
        Record::Binary { code, modifier } if !is_set_operator(*code) => Some(modifier),
        _ => None,
    }
}

fn is_bool<'r>(record: &'r mut Record) -> Option<&'r mut bool> {
    Some(&mut modifier(record)?.is_bool)
}

fn matching<'a>(
    random: &mut Random,
    records: &mut [Record<'a>],
    pair: impl Fn(Labels<'a>) -> [Matching<'a>; 2],
) -> Option<Vec<Record<'a>>> {
    replaced(random, records, |_, record| {
        varied(record, matching_of, |found| match found {
            Matching::None => Some(pair(Vec::new())),
            Matching::On(labels) | Matching::Ignoring(labels) => Some(pair(labels.clone())),
        })
    })
}

fn matching_of<'r, 'a>(record: &'r mut Record<'a>) -> Option<&'r mut Matching<'a>> {
    Some(&mut modifier(record)?.matching)
}

fn cardinality<'a>(
    random: &mut Random,
    records: &mut [Record<'a>],
    pair: impl Fn(Labels<'a>) -> [Cardinality<'a>; 2],
) -> Option<Vec<Record<'a>>> {
    replaced(random, records, |_, record| {
        varied(record, plain_cardinality, |found| match found {
            Cardinality::GroupLeft(labels) | Cardinality::GroupRight(labels) => {
                Some(pair(labels.clone()))
            }
            _ => Some(pair(Vec::new())),
        })
    })
}

fn plain_cardinality<'r, 'a>(record: &'r mut Record<'a>) -> Option<&'r mut Cardinality<'a>> {
    let modifier = plain_modifier(record)?.as_mut()?;
    Some(&mut modifier.cardinality)
}

type Fills = (Option<Number>, Option<Number>);

fn fills<'a>(
    random: &mut Random,
    records: &mut [Record<'a>],
    pair: [Fills; 2],
) -> Option<Vec<Record<'a>>> {
    replaced(random, records, |_, record| {
        varied(record, modifier, |found| {
            Some(pair.map(|(left_fill, right_fill)| Modifier {
                left_fill,
                right_fill,
                ..found.clone()
            }))
        })
    })
}

fn grouping<'a>(
    random: &mut Random,
    records: &mut [Record<'a>],
    pair: impl Fn(Labels<'a>) -> [Grouping<'a>; 2],
) -> Option<Vec<Record<'a>>> {
    replaced(random, records, |_, record| {
        varied(record, grouping_of, |found| match found {
            Grouping::None => Some(pair(Vec::new())),
            Grouping::By(labels) | Grouping::Without(labels) => Some(pair(labels.clone())),
        })
    })
}

fn grouping_of<'r, 'a>(record: &'r mut Record<'a>) -> Option<&'r mut Grouping<'a>> {
    match record {
        Record::Aggregate { grouping, .. } => Some(grouping),
        _ => None,
    }
}
