//! What keeps @ and offset of one expression next to each other: a second one is 10 or 12, a range behind them 7 or 8,
//! and behind any other record but a subquery they are 11 and 13.

use super::super::fault::{context, unread};
use super::super::{Generator, Made};
use crate::answer::Outcome;
use crate::hex;
use crate::page::write;

/// The records, the last of which is refused, and its number.
#[rustfmt::skip]
const ROWS: &[(&str, u8)] = &[
    ("0202757000 060001 0501 060001", 12), ("0202757000 060001 0501 0501", 10), ("0202757000 0501 060001 0501", 10),
    ("0202757000 0501 060001 060001", 12), ("0202757000 060001 060001", 12), ("0202757000 0501 0501", 10),
    ("0202757000 060001 0501 0301", 7), ("0202757000 0501 060001 0301", 7), ("0202757000 060001 0301", 7),
    ("0202757000 0501 0301", 8), ("0202757000 060001 08 0501", 11), ("0202757000 060001 07 0501", 11),
    ("0202757000 0202757000 060001 090100 0501", 11), ("0202757000 060001 0a1b0001 0501", 11),
    ("0202757000 060001 0b01660100000001 0501", 11), ("0202757000 0501 08 060001", 13),
    ("0202757000 0501 07 060001", 13), ("0202757000 0202757000 0501 090100 060001", 13),
    ("0202757000 0501 0a1b0001 060001", 13), ("0202757000 0501 0b01660100000001 060001", 13),
    ("0202757000 040100 060001 0501 060001", 12), ("0202757000 0301 060001 0501 0501", 10),
    ("0202757000 060001 040100 0501 0501", 10), ("0202757000 0501 040100 060001 060001", 12),
    ("0202757000 060001 0501 08 0501", 11), ("0202757000 060001 0501 08 060001", 13),
];

/// The number of records of a row.
fn length(records: &str) -> usize {
    records.split(' ').count()
}

pub(super) fn fixed() -> impl Iterator<Item = Made> {
    ROWS.iter().map(|(records, number)| {
        let outcome = Outcome::Refused {
            number: *number,
            record: length(records) - 1,
        };
        Made::new(hex::bytes(records), outcome)
    })
}

impl Generator<'_> {
    /// One of these behind good expressions, with bytes after it that no reader gets to.
    pub(super) fn refused_time(&mut self) -> Made {
        let (refused, number) = *self.random.pick(ROWS);
        let before = context(self, 2);
        let mut page = write::page(&before);
        page.extend(hex::bytes(refused));
        page.extend(unread(self.random));
        let record = before.len() + length(refused) - 1;
        Made::new(page, Outcome::Refused { number, record })
    }
}
