//! Two server generations (document 02, No. 13): "Some clubs run Prometheus 2.55 servers, others 3.0. Add a table for
//! each from its functions document." What the documents show is read by `documents`; `disagreements` tells how it
//! stands to the repository's table, and `report` prints both.

pub mod disagreements;
pub mod report;

use crate::answer::Outcome;
use crate::documents::signature::Shown;
use crate::documents::{self, Document, Functions};
use crate::functions::{self, Table};
use crate::page::record::{Kind, Signature, Text};
use std::sync::LazyLock;

/// A generation of servers: Prometheus 2.55, and 3.0.
#[derive(Debug, Clone, Copy, PartialEq, Eq)]
pub enum Generation {
    Older,
    Newer,
}

/// "Add experimental `info` function" (change log, 2.55.0): the older generation has it, its document, which is
/// 2.53.3's, does not.
const ADDED_BEFORE: [&str; 1] = ["info"];

/// "Add `ts_of_(min|max|last)_over_time`" (change log, 3.5.0): the document of the newer generation, which is 3.5.3's,
/// has them, 3.0 does not.
const ADDED_BEHIND: [&str; 3] = [
    "ts_of_min_over_time",
    "ts_of_max_over_time",
    "ts_of_last_over_time",
];

/// "The older has holt_winters, the newer double_exponential_smoothing, same kinds": no document tells the result, and
/// the repository's table has the newer name alone.
const RENAMED: (&str, &str) = ("holt_winters", "double_exponential_smoothing");

fn read(document: Document) -> Functions {
    let version = document.version;
    let functions = document.functions();
    functions.unwrap_or_else(|words| panic!("the functions document of {version}: {words}"))
}

/// What the document of 2.53.3 describes, and `info` as 3.5.3's does.
static OLDER: LazyLock<Functions> = LazyLock::new(|| {
    let mut functions = read(documents::OLDER);
    let later = read(documents::NEWER).into_iter();
    functions.extend(later.filter(|(name, _)| ADDED_BEFORE.contains(&name.as_str())));
    functions
});

/// What the document of 3.5.3 describes, without the three that 3.0 lacks.
static NEWER: LazyLock<Functions> = LazyLock::new(|| {
    let mut functions = read(documents::NEWER);
    functions.retain(|name, _| !ADDED_BEHIND.contains(&name.as_str()));
    functions
});

static OLDER_TABLE: LazyLock<Table> = LazyLock::new(|| table_of(&OLDER));
static NEWER_TABLE: LazyLock<Table> = LazyLock::new(|| table_of(&NEWER));

static SHARED: LazyLock<Table> = LazyLock::new(|| {
    let mut shared = OLDER_TABLE.clone();
    shared.retain(|name, signature| NEWER_TABLE.get(name) == Some(signature));
    shared
});

/// The functions that both generations have, alike.
pub fn shared() -> &'static Table {
    &SHARED
}

fn table_of(functions: &'static Functions) -> Table {
    let rows = functions
        .iter()
        .map(|(name, described)| (name.as_str(), signature(name, &described.shown)));
    rows.collect()
}

/// "A shared name keeps the repository's count of kinds and its extra; a name it lacks takes the document's kinds in
/// order, its optional ones counted as extra." The kinds are the document's; what it does not say, the result, is the
/// repository's.
fn signature(name: &str, shown: &Shown) -> Signature<'static> {
    let (count, extra) = match functions::signature(name) {
        Some(known) => (known.kinds.len(), known.extra),
        None => (shown.arguments.len(), shown.extra()),
    };
    let kinds: Vec<Kind> = shown.kinds().take(count).collect();
    assert_eq!(kinds.len(), count, "{name}: the document shows fewer kinds");
    Signature {
        name: Text::from(name),
        kinds,
        extra,
        result: result(name),
    }
}

fn result(name: &str) -> Kind {
    let known = if name == RENAMED.0 { RENAMED.1 } else { name };
    let signature = functions::signature(known);
    let signature = signature.unwrap_or_else(|| panic!("nothing tells the result of {name}"));
    signature.result
}

impl Generation {
    pub const ALL: [Self; 2] = [Self::Older, Self::Newer];

    /// The version of its servers.
    pub fn version(self) -> &'static str {
        match self {
            Self::Older => "2.55",
            Self::Newer => "3.0",
        }
    }

    /// The document that its table comes from.
    pub fn document(self) -> Document<'static> {
        match self {
            Self::Older => documents::OLDER,
            Self::Newer => documents::NEWER,
        }
    }

    /// What is described of its functions.
    pub fn functions(self) -> &'static Functions {
        match self {
            Self::Older => &OLDER,
            Self::Newer => &NEWER,
        }
    }

    pub fn table(self) -> &'static Table {
        match self {
            Self::Older => &OLDER_TABLE,
            Self::Newer => &NEWER_TABLE,
        }
    }

    pub fn other(self) -> Self {
        match self {
            Self::Older => Self::Newer,
            Self::Newer => Self::Older,
        }
    }

    /// The function that the other generation lacks.
    pub fn own(self) -> &'static Signature<'static> {
        let mut names = self.table().iter();
        let (_, own) = names
            .find(|(name, _)| !self.other().table().contains_key(*name))
            .expect("the tables differ");
        own
    }
}

/// Which generations accept a page: "neither, one (and which) or both".
#[derive(Debug, Clone, Copy, PartialEq, Eq)]
pub enum Generations {
    Neither,
    Older,
    Newer,
    Both,
}

impl Generations {
    pub const ALL: [Self; 4] = [Self::Neither, Self::Older, Self::Newer, Self::Both];

    /// "Each by No. 2's check with its own table": by the two outcomes.
    pub fn of(older: Outcome, newer: Outcome) -> Self {
        let accepts = |outcome| matches!(outcome, Outcome::Accepted(_));
        match (accepts(older), accepts(newer)) {
            (false, false) => Self::Neither,
            (true, false) => Self::Older,
            (false, true) => Self::Newer,
            (true, true) => Self::Both,
        }
    }

    /// The library's word for the answer, which is no outcome's.
    pub fn word(self) -> u64 {
        self as u64
    }
}
