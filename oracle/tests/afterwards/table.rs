//! What a check with a table says, told by the records afterwards; the oracle asks the table on its way.

use oracle::answer::{Outcome, Worked};
use oracle::functions::{self, Table};

/// The first call that the table refuses, among the records up to and including the one that document 01 refuses;
/// otherwise document 01's outcome.
pub fn by_records(worked: &Worked, table: &Table) -> Outcome {
    let mut numbered = worked.records.iter().enumerate();
    let refused = numbered.find_map(|(record, read)| {
        let number = functions::fault(table, read)?;
        Some(Outcome::Refused { number, record })
    });
    refused.unwrap_or(worked.outcome)
}
