//! "Where a document disagrees with the repository's table on a name or a kind, the document decides here and the
//! difference is recorded": all differences, and what a document shows otherwise of a count or an extra, which the
//! repository decides.

use crate::documents::signature::Shown;
use crate::documents::Functions;
use crate::functions;
use crate::page::record::Signature;

/// Names, ascending.
#[derive(Debug, Clone, PartialEq)]
pub struct Disagreements {
    /// The document has it, the repository does not.
    pub added: Vec<&'static str>,
    /// The repository has it, the document does not.
    pub left_out: Vec<&'static str>,
    /// Another kind at a place that both count.
    pub kinds: Vec<&'static str>,
    /// Another count of kinds, or another extra, as the document shows it.
    pub counts: Vec<&'static str>,
}

/// How the repository's table stands to functions that a document describes.
pub fn of(functions: &'static Functions) -> Disagreements {
    let named = |is_meant: fn(&str, &Shown) -> bool| {
        let meant = functions
            .iter()
            .filter(|(name, described)| is_meant(name, &described.shown));
        meant.map(|(name, _)| name.as_str()).collect()
    };
    let lacks = |name: &&str| !functions.contains_key(*name);
    Disagreements {
        added: named(|name, _| functions::signature(name).is_none()),
        left_out: functions::names().filter(lacks).collect(),
        kinds: named(|name, shown| {
            functions::signature(name).is_some_and(|known| has_other_kinds(known, shown))
        }),
        counts: named(|name, shown| {
            functions::signature(name).is_some_and(|known| has_other_count(known, shown))
        }),
    }
}

pub fn has_other_kinds(known: &Signature, shown: &Shown) -> bool {
    let mut pairs = known.kinds.iter().copied().zip(shown.kinds());
    pairs.any(|(known, shown)| known != shown)
}

pub fn has_other_count(known: &Signature, shown: &Shown) -> bool {
    (known.kinds.len(), known.extra) != (shown.arguments.len(), shown.extra())
}
