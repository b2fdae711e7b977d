//! Where a difference is not tied to a given query, no page of fewer bytes than its row's shows it. A page that shows it in a
//! record ends there, since what follows only adds bytes; so every shorter page that ends in a record of that kind is tried.

mod documents;
mod port;

use crate::document::row;
use crate::records::Records;
use crate::search::{beginnings, search, worked};
use oracle::answer::Worked;
use oracle::page::write;

const TEXTS: &[&str] = &["", "a", "b", "aa", "(", "^", "a{,3}"];

/// The page of the row shows the difference; no shorter one does that ends in a record of this kind.
fn is_smallest(number: &str, kind: u8, shows: fn(&Worked) -> bool) {
    let page = row(number).page;
    assert!(shows(&worked(&page)), "row {number}");
    assert!(is_in_reach(&page, kind), "row {number}");
    let found = search(page.len() - 1, kind, TEXTS, shows);
    assert!(found.is_empty(), "row {number}: {found:02x?}");
}

/// Whether a search of as many bytes would try the page.
fn is_in_reach(page: &[u8], kind: u8) -> bool {
    let records = worked(page).records;
    let (beginning, last) = page.split_at(write::page(&records[..records.len() - 1]).len());
    let limit = last.len();
    let is_made = |made: Vec<Vec<u8>>, bytes: &[u8]| made.iter().any(|each| each == bytes);
    let texts = TEXTS;
    is_made(Records { limit, texts }.of_kind(kind), last)
        && is_made(beginnings(beginning.len(), texts), beginning)
}
