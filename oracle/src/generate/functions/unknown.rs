//! Calls of names that the table lacks: near spellings of its names, aggregators, names before and behind all of them,
//! short and long ones; with a signature of the table and arguments that it takes.

use super::call;
use super::right::arguments;
use crate::functions::spelling::{near_unknown, strangers, Spelling};
use crate::functions::{names, signature};
use crate::generate::{Generator, Made};
use crate::page::record::{Signature, Text};
use crate::page::write;
use crate::refusal::UNKNOWN_FUNCTION;

/// A call of this name that is like another function in all else; on an empty stack or with its arguments.
fn refused(name: &str, like: &str, is_bare: bool) -> Made {
    let known = signature(like).expect("a function of the table");
    let carried = Signature {
        name: Text::from(name),
        ..known.clone()
    };
    let count = known.kinds.len();
    let mut records = match is_bare {
        true => Vec::new(),
        false => arguments(known, count),
    };
    let record = records.len();
    records.push(call(carried, count));
    Made::refused(write::page(&records), UNKNOWN_FUNCTION, record)
}

/// The first near spelling of each sort; several names have none.
fn of_each_sort() -> impl Iterator<Item = (String, &'static str)> {
    let near =
        names().flat_map(|name| near_unknown(name).into_iter().map(move |near| (near, name)));
    let near: Vec<_> = near.collect();
    let sorts = Spelling::ALL.into_iter();
    sorts.filter_map(move |sort| near.iter().find(|(name, _)| sort.is_of(name)).cloned())
}

pub(super) fn fixed() -> impl Iterator<Item = Made> {
    let numbered = names().enumerate();
    let near = numbered.map(|(place, name)| {
        let near = near_unknown(name);
        (near[7 * place % near.len()].clone(), name)
    });
    let strange = strangers().into_iter().map(|name| (name, "abs"));
    let all = near.chain(of_each_sort()).chain(strange).enumerate();
    all.map(|(place, (name, like))| refused(&name, like, place % 4 == 3))
}

impl Generator<'_> {
    /// A name that the table lacks: mostly near one that it has.
    pub(super) fn unknown_name(&mut self, name: &str) -> Text<'static> {
        let near = match self.random.below(10) {
            0 => strangers(),
            _ => near_unknown(name),
        };
        Text::from(self.random.pick(&near).as_str())
    }

    /// One call of a query with an unknown name, or such a call by itself.
    pub(super) fn unknown_page(&mut self) -> Made {
        if self.random.chance(70) {
            return self.altered_page(UNKNOWN_FUNCTION);
        }
        let like = &self.table_signature().name.text;
        let name = self.unknown_name(like);
        refused(&name.text, like, self.random.chance(30))
    }
}
