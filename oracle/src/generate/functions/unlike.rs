//! Every function of the table with signatures that are unlike its own in one way: with their arguments, with an
//! argument too many, on an empty stack, and in queries.

use super::call;
use super::right::arguments;
use crate::functions::near::{self, Unlike};
use crate::functions::signatures;
use crate::generate::{Generator, Made};
use crate::page::record::{Number, Record, Signature};
use crate::page::write;
use crate::refusal::UNLIKE_SIGNATURE;

/// A call of a signature that is unlike the table's: `form` says what stands below it.
fn refused(carried: &Signature<'static>, form: usize) -> Made {
    let fitting = carried.kinds.len();
    let (mut records, count) = match form % 3 {
        0 => (arguments(carried, fitting), fitting),
        1 => (Vec::new(), fitting.max(1)),
        _ => {
            let mut more = arguments(carried, fitting);
            more.push(Record::Number(Number::NaN));
            (more, fitting + 1)
        }
    };
    let record = records.len();
    records.push(call(carried.clone(), count));
    Made::refused(write::page(&records), UNLIKE_SIGNATURE, record)
}

/// Each way of being unlike once for each function; which signature and what stands below it changes from one to the
/// next.
pub(super) fn fixed() -> impl Iterator<Item = Made> {
    let numbered = signatures().enumerate();
    numbered.flat_map(|(place, known)| {
        let ways = Unlike::ALL.into_iter().enumerate();
        ways.filter_map(move |(index, way)| {
            let near = near::signatures(known, way);
            let carried = near.get(place % near.len().max(1))?;
            Some(refused(carried, place / 2 + index))
        })
    })
}

impl Generator<'_> {
    /// A signature that is unlike the table's in one way.
    pub(in crate::generate) fn unlike_signature(
        &mut self,
        known: &Signature<'static>,
    ) -> Signature<'static> {
        loop {
            let way = *self.random.pick(&Unlike::ALL);
            let near = near::signatures(known, way);
            if !near.is_empty() {
                return self.random.pick(&near).clone();
            }
        }
    }

    /// One call of a query with an unlike signature, or such a call by itself.
    pub(super) fn unlike_page(&mut self) -> Made {
        if self.random.chance(70) {
            return self.altered_page(UNLIKE_SIGNATURE);
        }
        let known = self.table_signature();
        let carried = self.unlike_signature(known);
        refused(&carried, self.random.below(3))
    }
}
