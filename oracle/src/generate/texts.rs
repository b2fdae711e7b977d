//! Names, labels, values and patterns.

use super::patterns::spelling::covered;
use super::{alphabet, Generator, Scope};
use crate::page::record::{Operation, Text};
use crate::tree;

#[rustfmt::skip]
const METRICS: &[&str] = &[
    "up", "watch_battery_volts", "node_cpu_seconds_total", "a", "_", ":", "job:x:rate5m", "satellites", "on", "x9",
];
#[rustfmt::skip]
const LABELS: &[&str] = &[
    "a", "b", "x", "job", "instance", "lot", "le", "by", "_", "Z", "a1", "aa", "", "a b", "a:b", "9", "-", "\"",
    "a\\b", "\n", "\r", "\t", "\u{0}", "\u{7f}", "serial_number",
];
#[rustfmt::skip]
const VALUES: &[&str] = &[
    "", "a", "b", "x", "prod", "a b", "\"", "\\", "\n", "\r", "\t", "\u{1}", "\u{b}", "'", "`", "{", "lot-17",
];
#[rustfmt::skip]
const PATTERNS: &[&str] = &[
    "", ".*", ".+", "a", "a|b", "a*", "a+", "a?", "(a|b)*", "a|", "|a", "()", "(a)", "a.b", "[ab]", "[^a]*", "a{2}",
    "a{0,3}", "a{,3}", "a{b}", "x{", "^a$", "^$", "\\d+", "\\d*", "(?i)a", "a)|(b", "prod-[0-9]+", "(a*)+", "$", "^",
    "\\.", "a{1,2}b?",
];

impl Generator<'_> {
    /// A length that fits the room, mostly short.
    pub fn length(&mut self, low: usize) -> usize {
        let high = if self.room == 255 && self.random.chance(20) {
            255
        } else {
            self.room.min(60)
        };
        self.random.between(low, high.max(low))
    }

    fn spelled(&mut self, length: usize, first: &[u8], rest: &[u8]) -> Text<'static> {
        let letters: String = (0..length)
            .map(|index| char::from(*self.random.pick(if index == 0 { first } else { rest })))
            .collect();
        Text::from(letters.as_str())
    }

    pub fn metric_name(&mut self) -> Text<'static> {
        if self.random.chance(60) {
            return self.listed(METRICS);
        }
        let length = self.length(1);
        self.spelled(length, b"abzAZ_:", b"abzAZ_:019")
    }

    pub fn function_name(&mut self) -> Text<'static> {
        let length = self.length(1).min(64);
        self.spelled(length, b"fgz_AZ", b"fgz_AZ09")
    }

    /// One of a list that fits the room.
    pub(super) fn listed(&mut self, list: &[&'static str]) -> Text<'static> {
        loop {
            let text = *self.random.pick(list);
            if text.len() <= self.room.max(8) {
                return Text::from(text);
            }
        }
    }

    fn any_text(&mut self) -> Text<'static> {
        let length = self.length(0);
        let text: String = (0..length)
            .map(|_| char::from(self.random.byte() & 0x7f))
            .collect();
        Text::from(text.as_str())
    }

    pub fn label(&mut self) -> Text<'static> {
        if let Some(label) = self.beyond_ascii(alphabet::LABELS) {
            return label;
        }
        match self.random.below(10) {
            0 => self.any_text(),
            1..=3 => {
                let length = self.length(1);
                self.spelled(length, b"abz_AZ", b"abz_AZ09")
            }
            _ => self.listed(LABELS),
        }
    }

    /// A label for a matcher: `__name__` is kept for those who ask for it.
    pub fn matcher_name(&mut self) -> Text<'static> {
        loop {
            let label = self.label();
            if label.text != "__name__" {
                return label;
            }
        }
    }

    pub fn value(&mut self) -> Text<'static> {
        if let Some(value) = self.beyond_ascii(alphabet::LABELS) {
            return value;
        }
        if self.random.chance(70) {
            self.listed(VALUES)
        } else {
            self.any_text()
        }
    }

    /// A pattern that the Rust's regex takes, and whether it matches empty text.
    pub fn pattern(&mut self) -> (Text<'static>, bool) {
        loop {
            let pattern = self.any_pattern();
            if pattern.len() > self.room.max(12) {
                continue;
            }
            if let Some(flag) = tree::matches_empty(&pattern) {
                return (Text::from(pattern.as_str()), flag);
            }
        }
    }

    /// Pieces of patterns one after the other; in the scope of No. 7 as often a covered pattern.
    fn any_pattern(&mut self) -> String {
        if self.scope >= Scope::Patterns && self.random.chance(50) {
            let most = self.length(0).max(12);
            return covered(self.random, most);
        }
        let pieces = if self.random.chance(70) {
            1
        } else {
            self.random.between(2, 4)
        };
        (0..pieces).map(|_| self.piece()).collect()
    }

    /// A piece of a pattern.
    fn piece(&mut self) -> &'static str {
        let is_longer = self.scope >= Scope::Utf8 && self.random.chance(60);
        *self.random.pick(match is_longer {
            true => alphabet::PATTERNS,
            false => PATTERNS,
        })
    }

    /// An operation with a value that suits it.
    pub fn operation(&mut self) -> (Operation, Text<'static>) {
        match self.random.below(4) {
            0 => (Operation::Equal, self.value()),
            1 => (Operation::NotEqual, self.value()),
            2 => {
                let (pattern, flag) = self.pattern();
                (Operation::Regex(flag), pattern)
            }
            _ => {
                let (pattern, flag) = self.pattern();
                (Operation::NotRegex(flag), pattern)
            }
        }
    }
}
