//! Every page of at most so many bytes whose last record is of a given kind; what stands before it was accepted.

use crate::records::{Records, Strings, KINDS};
use oracle::answer::{self, Outcome, Worked};
use oracle::page::read::Reader;
use oracle::page::record::Record;

pub fn worked(page: &[u8]) -> Worked<'_> {
    answer::work(page).expect("the Rust is foreseen")
}

/// How many expressions the accepted records of a page leave.
pub fn expressions(page: &[u8]) -> usize {
    let worked = worked(page);
    let taken: usize = worked.records.iter().map(Record::operands).sum();
    worked.records.len() - taken
}

/// Whether every record was accepted; the page may leave several expressions.
fn passes(worked: &Worked) -> bool {
    match worked.outcome {
        Outcome::Accepted(_) => true,
        Outcome::Refused { number, record } => number == 2 && record == worked.records.len(),
    }
}

/// Records with the number of operands that each takes; unreadable ones take none.
fn counted(records: Strings) -> Vec<(usize, Vec<u8>)> {
    let operands = |record: &[u8]| {
        let read = Reader::new(record).record();
        read.map_or(0, |record| record.operands())
    };
    let with_count = |record: Vec<u8>| (operands(&record), record);
    records.into_iter().map(with_count).collect()
}

/// The page with one more record that finds its operands, within the limit.
fn continued<'a>(
    page: &'a [u8],
    records: &'a [(usize, Vec<u8>)],
    limit: usize,
) -> impl Iterator<Item = Vec<u8>> + 'a {
    let expressions = expressions(page);
    let fitting = records.iter().filter(move |(operands, record)| {
        *operands <= expressions && page.len() + record.len() <= limit
    });
    fitting.map(move |(_, record)| [page, record].concat())
}

/// Every sequence of accepted records of at most so many bytes.
pub fn beginnings(limit: usize, texts: &'static [&'static str]) -> Strings {
    let records = Records { limit, texts };
    let records = counted(KINDS.flat_map(|kind| records.of_kind(kind)).collect());
    let mut made: Strings = vec![Vec::new()];
    let mut done = 0;
    while done < made.len() {
        let longer = continued(&made[done], &records, limit);
        let passing: Strings = longer.filter(|page| passes(&worked(page))).collect();
        made.extend(passing);
        done += 1;
    }
    made
}

/// The pages of at most `limit` bytes that end in a record of this kind and of which `shows` is true.
pub fn search(
    limit: usize,
    kind: u8,
    texts: &'static [&'static str],
    shows: fn(&Worked) -> bool,
) -> Strings {
    let last = counted(Records { limit, texts }.of_kind(kind));
    let shortest = last.iter().map(|(_, record)| record.len()).min();
    let beginnings = beginnings(limit - shortest.unwrap_or(limit), texts);
    let pages = beginnings
        .iter()
        .flat_map(|beginning| continued(beginning, &last, limit));
    pages.filter(|page| shows(&worked(page))).collect()
}
