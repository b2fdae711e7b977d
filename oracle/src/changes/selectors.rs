//! Names and matchers of selectors, and the flags of patterns.

use super::numbers::longer;
use super::{places, replaced, varied, Change};
use crate::covered;
use crate::page::record::*;
use crate::page::MAX_LIST;
use crate::random::Random;
use crate::tree;

type Matchers<'a> = Vec<Matcher<'a>>;

pub const CHANGES: &[Change] = &[
    Change::other("a metric and one with a longer name", |random, records| {
        replaced(random, records, |_, record| match record {
            Record::Selector { name, matchers } if !name.text.is_empty() => {
                Some(Record::Selector {
                    name: longer(name)?,
                    matchers: matchers.clone(),
                })
            }
            _ => None,
        })
    }),
    Change::other("a matcher and one with a longer name", |random, records| {
        matcher(random, records, |matcher| {
            let name = longer(&matcher.name)?;
            Some([
                matcher.clone(),
                Matcher {
                    name,
                    ..matcher.clone()
                },
            ])
        })
    }),
    Change::other(
        "a matcher and one with a longer value",
        |random, records| {
            matcher(random, records, |matcher| {
                let value = longer(&matcher.value)?;
                Some([
                    matcher.clone(),
                    Matcher {
                        value,
                        ..matcher.clone()
                    },
                ])
            })
        },
    ),
    Change::other("= and !=", |random, records| {
        operation(random, records, |matcher| match matcher.operation {
            Operation::Equal | Operation::NotEqual => Some([Operation::Equal, Operation::NotEqual]),
            _ => None,
        })
    }),
    Change::other("=~ and !~", |random, records| {
        operation(random, records, |matcher| {
            let flag = matcher.operation.flag()?;
            Some([Operation::Regex(flag), Operation::NotRegex(flag)])
        })
    }),
    Change::other("= and =~", |random, records| {
        operation(random, records, |matcher| {
            let flag = tree::matches_empty(&matcher.value.text)?;
            Some([Operation::Equal, Operation::Regex(flag)])
        })
    }),
    Change::other("the flag 0 and 1 of =~", |random, records| {
        flag(random, records, Operation::Regex)
    }),
    Change::other("the flag 0 and 1 of !~", |random, records| {
        flag(random, records, Operation::NotRegex)
    }),
    Change::other("matchers in another order", |random, records| {
        matchers(random, records, |random, matchers| {
            let mut places = places(random, matchers.len().saturating_sub(1));
            let place = places.find(|place| !are_alike(&matchers[*place], &matchers[place + 1]))?;
            matchers.swap(place, place + 1);
            Some(())
        })
    }),
    Change::other("a matcher and the same twice", |random, records| {
        matchers(random, records, |random, matchers| {
            let place = places(random, matchers.len()).next()?;
            let has_room = (matchers.len() as u64) < MAX_LIST;
            has_room.then(|| matchers.insert(place, matchers[place].clone()))
        })
    }),
    Change::other("a matcher and none", |random, records| {
        matchers(random, records, |random, matchers| {
            let place = places(random, matchers.len()).next()?;
            matchers.remove(place);
            Some(())
        })
    }),
];

/// Alike but for where they lie on the page.
fn are_alike(one: &Matcher, other: &Matcher) -> bool {
    let parts = |matcher: &Matcher| {
        let [name, value] = [&matcher.name, &matcher.value].map(|text| text.text.to_string());
        (matcher.operation, name, value)
    };
    parts(one) == parts(other)
}

fn matchers<'a>(
    random: &mut Random,
    records: &mut [Record<'a>],
    change: impl Fn(&mut Random, &mut Matchers<'a>) -> Option<()>,
) -> Option<Vec<Record<'a>>> {
    replaced(random, records, |random, record| {
        let mut other = record.clone();
        change(random, matchers_of(&mut other)?)?;
        Some(other)
    })
}

fn matchers_of<'r, 'a>(record: &'r mut Record<'a>) -> Option<&'r mut Matchers<'a>> {
    match record {
        Record::Selector { matchers, .. } => Some(matchers),
        _ => None,
    }
}

/// Two matchers in the place of one that `pair` takes.
fn matcher<'a>(
    random: &mut Random,
    records: &mut [Record<'a>],
    pair: impl Fn(&Matcher<'a>) -> Option<[Matcher<'a>; 2]>,
) -> Option<Vec<Record<'a>>> {
    replaced(random, records, |random, record| {
        let count = matchers_of(record)?.len();
        let mut places = places(random, count);
        places.find_map(|place| varied(record, |record| matchers_of(record)?.get_mut(place), &pair))
    })
}

fn operation<'a>(
    random: &mut Random,
    records: &mut [Record<'a>],
    pair: impl Fn(&Matcher) -> Option<[Operation; 2]>,
) -> Option<Vec<Record<'a>>> {
    matcher(random, records, |matcher| {
        let operations = pair(matcher)?;
        Some(operations.map(|operation| Matcher {
            operation,
            ..matcher.clone()
        }))
    })
}

/// Both flags of a pattern that is not covered: `[x]` in the place of any other.
fn flag<'a>(
    random: &mut Random,
    records: &mut [Record<'a>],
    with: fn(bool) -> Operation,
) -> Option<Vec<Record<'a>>> {
    matcher(random, records, |matcher| {
        let is_believed = !covered::is_covered(&matcher.value.text);
        let value = match is_believed {
            true => matcher.value.clone(),
            false => Text::from("[x]"),
        };
        let flagged = |flag| Matcher {
            operation: with(flag),
            value: value.clone(),
            name: matcher.name.clone(),
        };
        Some([false, true].map(flagged))
    })
}
