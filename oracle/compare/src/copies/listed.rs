//! Every accepted page of a few records of a small pool, each compared with every other.

use super::block::Block;
use super::copier::Copier;
use super::Tally;
use crate::library::Library;
use oracle::answer::{self, Outcome};
use oracle::hex;

/// Records that are easily taken for each other.
#[rustfmt::skip]
const POOL: [&str; 28] = [
    "000000", "000100", "0002", "00050501", "0100", "0202757000", "020275700200016101310001620132",
    "020275700200016201320001610131", "0202757001020161035b785d00", "0202757001020161035b785d01", "0301", "040100",
    "04010100", "0501", "050200", "050301", "060001", "060000", "060100", "07", "08", "090100", "0901010000000000",
    "090600", "0906010000030000", "0a1b0001", "0a1b010001", "0b01660100000001",
];

pub fn compare(library: Library, records: usize) -> Result<Tally, String> {
    let pool = POOL.map(hex::bytes);
    let mut copier = Copier::new(library);
    let mut block = Block::new(&mut copier);
    // Beginnings of accepted pages: what is refused at a record, not at the end, begins none.
    let mut beginnings = vec![Vec::new()];
    for _ in 0..records {
        let mut longer = Vec::new();
        for beginning in &beginnings {
            for record in &pool {
                let page = [beginning.as_slice(), record].concat();
                if is_beginning(&page)? {
                    block.take(&page)?;
                    longer.push(page);
                }
            }
        }
        beginnings = longer;
    }
    let tally = block.tally();
    match tally.trees < tally.pages {
        true => Ok(tally),
        false => Err("no two pages of one tree".into()),
    }
}

/// Whether all records pass; the stack may hold more than one expression.
fn is_beginning(page: &[u8]) -> Result<bool, String> {
    let worked = answer::work(page).map_err(|failure| failure.0)?;
    Ok(match worked.outcome {
        Outcome::Accepted(_) => true,
        Outcome::Refused { number, record } => number == 2 && record == worked.records.len(),
    })
}
