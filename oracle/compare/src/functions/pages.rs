//! Pages for both checks: every name of the table with every signature that is unlike its own in one way, and every
//! name near one of the table with that one's signature, each on an empty stack and on its arguments.

use super::Tally;
use crate::judge::Judge;
use crate::library::Library;
use oracle::answer::{self, Outcome};
use oracle::functions::signatures;
use oracle::generate::functions::near_pages;
use oracle::refusal::{UNKNOWN_FUNCTION, UNLIKE_SIGNATURE};

pub fn compare(library: Library, tally: &mut Tally) -> Result<(), String> {
    let judge = &mut Judge::new(library, 1);
    let mut pages = signatures().flat_map(near_pages);
    pages.try_for_each(|page| one(judge, &page, tally))
}

fn one(judge: &mut Judge, page: &[u8], tally: &mut Tally) -> Result<(), String> {
    let answer = answer::answer(page).map_err(|failure| failure.0)?;
    judge.compare(page, &answer)?;
    tally.pages += 1;
    let is_refused = |number| matches!(number, UNKNOWN_FUNCTION | UNLIKE_SIGNATURE);
    if let Outcome::Refused { number, .. } = answer.table {
        tally.refused += u64::from(is_refused(number));
    }
    Ok(())
}
