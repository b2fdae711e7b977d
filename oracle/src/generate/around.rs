//! Records that are refused by an added check, with others before and behind them, in notation.

use super::Made;
use crate::hex;
use crate::page::read::Reader;

/// Records before and behind those that are refused; nothing where these decide, else what does.
pub type Around = (&'static str, &'static str, Option<(u8, usize)>);

/// How many records a notation has of which all are readable.
pub fn length(notation: &str) -> usize {
    let page = hex::bytes(notation);
    let mut reader = Reader::new(&page);
    let mut records = 0;
    while !reader.is_at_end() {
        reader.record().expect("a record that can be read");
        records += 1;
    }
    records
}

pub fn refused(notation: &str, number: u8, record: usize) -> Made {
    Made::refused(hex::bytes(notation), number, record)
}

/// The last of the records is refused with the number, unless something before it is.
pub fn surrounded((before, behind, decided): Around, (records, number): (&str, u8)) -> Made {
    let last = || length(before) + length(records) - 1;
    let (number, record) = decided.unwrap_or_else(|| (number, last()));
    refused(&format!("{before} {records} {behind}"), number, record)
}
