//! Patterns that fill 255 bytes, or nearly, each with both flags.

use super::super::Coverage;
use crate::generate::patterns::full;

const LONG: usize = 250;

pub(super) fn classes() -> Vec<String> {
    let named = full::all().flat_map(|(words, _)| [false, true].map(|flag| class(words, flag)));
    named.collect()
}

fn class(words: &str, flag: bool) -> String {
    format!("patterns: {words}, flag {}", u8::from(flag))
}

impl Coverage {
    pub(super) fn full_pattern(&mut self, pattern: &str, flag: bool) {
        if pattern.len() > LONG {
            let found = full::all().find(|(_, each)| each == pattern);
            if let Some((words, _)) = found {
                self.hit(class(words, flag));
            }
        }
    }
}
