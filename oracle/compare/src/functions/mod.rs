//! `sandzguli_signature` (document 02, No. 2) held to the oracle: on every name of the function table, near ones,
//! random ones and what is no name, with buffers of every length that matters, between guard pages. Every name with
//! every near signature, and every near name, stands in pages too, for both checks.

mod asker;
mod names;
mod pages;

pub use asker::Asker;

use crate::library::Library;

/// So many random names are tried where no other count is asked for.
pub const USUAL: u64 = 200_000;

/// What was tried without a difference.
#[derive(Debug, Default, Clone, Copy, PartialEq)]
pub struct Tally {
    /// Names that the table has, and that it lacks.
    pub known: u64,
    pub unknown: u64,
    /// Calls for their signatures.
    pub calls: u64,
    pub pages: u64,
    /// Pages of which the table refuses a call.
    pub refused: u64,
}

/// What was tried, or the first difference.
pub fn compare(library: Library, random: u64) -> Result<Tally, String> {
    let mut asker = Asker::new(library);
    names::compare(&mut asker, random)?;
    let mut tally = asker.tally;
    pages::compare(library, &mut tally)?;
    Ok(tally)
}
