//! What the functions documents of Prometheus show (`oracle/prometheus`, for document 02, No. 13): every function with
//! its line, the kinds of its arguments in order, which of them are optional, and whether more follow. It is read from
//! the documents at run time; nothing of them is copied. `blocks` cuts a document into headings, list items and
//! paragraphs, `signature` reads one signature, `sections` finds the one that describes a function.

mod blocks;
mod sections;
pub mod signature;

use signature::Shown;
use std::collections::BTreeMap;

/// A functions document.
#[derive(Debug, Clone, Copy)]
pub struct Document<'a> {
    /// The version of Prometheus that it is of.
    pub version: &'static str,
    pub text: &'a str,
}

/// The document that the older generation's table comes from, and the newer one's.
pub const OLDER: Document = Document {
    version: "2.53.3",
    text: include_str!("../../prometheus/2.53.3/functions.md"),
};
pub const NEWER: Document = Document {
    version: "3.5.3",
    text: include_str!("../../prometheus/3.5.3/functions.md"),
};

/// A function as a document describes it.
#[derive(Debug, Clone, PartialEq)]
pub struct Described {
    /// The version of the document.
    pub version: &'static str,
    /// The line on which its signature begins; where it has none of its own, the line that names the function whose
    /// signature it has.
    pub line: usize,
    pub shown: Shown,
}

/// The functions of a document by their names, ascending.
pub type Functions = BTreeMap<String, Described>;

impl Document<'_> {
    /// Every function that the document describes; or in which way it cannot be read, with the line.
    pub fn functions(&self) -> Result<Functions, String> {
        let blocks = blocks::of(self.text)?;
        let found = sections::described(&blocks)?;
        let described = found.into_iter().map(|(name, (line, shown))| {
            let version = self.version;
            let described = Described {
                version,
                line,
                shown,
            };
            (name, described)
        });
        Ok(described.collect())
    }
}
