//! A node more, and operands in another order.

use super::{spliced, Change};
use crate::page::record::Record;
use crate::page::write;
use crate::random::Random;

pub const CHANGES: &[Change] = &[
    Change::other(
        "an expression and the same in a paren",
        |random, records| {
            spliced(random, records, 1, |found| {
                Some(vec![found[0].clone(), Record::Paren])
            })
        },
    ),
    Change::other("an expression and unary on it", |random, records| {
        unary(random, records, 1)
    }),
    Change::other(
        "an expression and two unary records on it",
        |random, records| unary(random, records, 2),
    ),
    Change::other("operands in another order", |random, records| {
        spliced(random, records, 3, |found| match found {
            [left, right, operator @ Record::Binary { .. }]
                if left.operands() + right.operands() == 0 && bytes(left) != bytes(right) =>
            {
                Some(vec![right.clone(), left.clone(), operator.clone()])
            }
            _ => None,
        })
    }),
];

fn bytes(record: &Record) -> Vec<u8> {
    write::page(std::slice::from_ref(record))
}

/// Not on a number, of which unary makes another.
fn unary<'a>(random: &mut Random, records: &[Record<'a>], count: usize) -> Option<Vec<Record<'a>>> {
    spliced(random, records, 1, |found| match found {
        [Record::Number(_) | Record::Unary] => None,
        _ => {
            let unary = std::iter::repeat_n(Record::Unary, count);
            Some(found.iter().cloned().chain(unary).collect())
        }
    })
}
