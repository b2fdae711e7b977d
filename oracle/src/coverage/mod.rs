//! Which classes of document 01 a run of pages reached: refusals, kinds, the parts of records, the rules of both texts;
//! and of document 02 calls and the function table (No. 2), texts by words (No. 4), fractions (No. 5), patterns and
//! their flags (No. 7), limitk and limit_ratio (No. 8), characters beyond ASCII and ill-formed texts (No. 10), two
//! server generations (No. 13), @ and offset (No. 14).

mod characters;
mod classes;
mod fractions;
mod functions;
mod generations;
mod ill_formed;
mod operators;
mod patterns;
mod records;
mod split;
mod texts;
mod times;
mod words;

use crate::answer::{Answer, Outcome, Worked};
use std::collections::BTreeMap;
use std::fmt;

/// How often each class occurred. A class that is not declared cannot be counted.
pub struct Coverage {
    counts: BTreeMap<String, u64>,
    pub pages: u64,
    pub accepted: u64,
}

impl Default for Coverage {
    fn default() -> Self {
        Self {
            counts: classes::all().into_iter().map(|class| (class, 0)).collect(),
            pages: 0,
            accepted: 0,
        }
    }
}

impl Coverage {
    fn hit(&mut self, class: impl AsRef<str>) {
        let class = class.as_ref();
        match self.counts.get_mut(class) {
            Some(count) => *count += 1,
            None => panic!("the class '{class}' is not declared"),
        }
    }

    fn hit_if(&mut self, is_hit: bool, class: &str) {
        if is_hit {
            self.hit(class);
        }
    }

    pub fn observe(&mut self, worked: &Worked, answer: &Answer) {
        self.pages += 1;
        for record in &worked.records {
            self.record(record);
        }
        self.words(worked);
        self.characters(worked);
        self.unread_text(worked);
        self.fractions(worked, answer);
        self.patterns(worked);
        self.times(worked, answer);
        self.functions(worked);
        self.operators(worked);
        self.generations(worked);
        match worked.outcome {
            Outcome::Refused { number, .. } => self.hit(format!("refusal {number:02}")),
            Outcome::Accepted(kind) => {
                self.accepted += 1;
                self.hit(format!("kind {kind:?}"));
                let short = answer.outcome_lent(&answer.split, answer.split.len() - 1);
                self.hit_if(
                    matches!(short, Outcome::Refused { number: 5, .. }),
                    "refusal 05",
                );
            }
        }
        if let Some((tree, copied)) = &worked.checked {
            self.texts(&worked.records, copied.len());
            self.split(tree, 0);
        }
    }

    /// Takes over what another run reached.
    pub fn add(&mut self, other: &Self) {
        self.pages += other.pages;
        self.accepted += other.accepted;
        for (class, count) in &mut self.counts {
            *count += other.counts[class];
        }
    }

    /// All counts as lines, for `of_lines`.
    pub fn to_lines(&self) -> String {
        let mut lines = format!("{} pages\n{} accepted\n", self.pages, self.accepted);
        for (class, count) in &self.counts {
            lines += &format!("{count} {class}\n");
        }
        lines
    }

    /// The counts that the lines hold; nothing if they are not those of the declared classes.
    pub fn of_lines(lines: &str) -> Option<Self> {
        let mut coverage = Self::default();
        let mut lines = lines.lines().map(|line| line.split_once(' '));
        let mut count = |expected: &str| {
            let (count, class) = lines.next()??;
            count.parse().ok().filter(|_| class == expected)
        };
        coverage.pages = count("pages")?;
        coverage.accepted = count("accepted")?;
        for (class, counted) in &mut coverage.counts {
            *counted = count(class)?;
        }
        Some(coverage)
    }

    /// How often a class occurred, or nothing if there is no such class.
    pub fn count(&self, class: &str) -> Option<u64> {
        self.counts.get(class).copied()
    }

    /// The classes that never occurred.
    pub fn missing(&self) -> Vec<&str> {
        self.counts
            .iter()
            .filter(|(_, count)| **count == 0)
            .map(|(class, _)| class.as_str())
            .collect()
    }
}

impl fmt::Display for Coverage {
    fn fmt(&self, f: &mut fmt::Formatter) -> fmt::Result {
        writeln!(f, "{} pages, {} accepted", self.pages, self.accepted)?;
        for (class, count) in &self.counts {
            writeln!(f, "{count:>9}  {class}")?;
        }
        let missing = self.missing().len();
        writeln!(f, "{} classes, {missing} missing", self.counts.len())
    }
}
