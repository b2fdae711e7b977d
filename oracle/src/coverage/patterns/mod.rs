//! Patterns and their flags (document 02, No. 7): the shapes of covered patterns, right and wrong flags by operation
//! and place, in which way patterns are not covered, patterns that fill 255 bytes; and what comes before and after 41.

mod flags;
mod full;
mod order;
mod shapes;
mod uncovered;

use super::Coverage;
use crate::answer::Worked;
use crate::covered;
use crate::page::record::{Matcher, Operation, Record};
use crate::uncovered::Uncovered;

pub(super) fn classes() -> Vec<String> {
    [
        flags::classes(),
        shapes::classes(),
        uncovered::classes(),
        full::classes(),
        order::classes(),
    ]
    .concat()
}

/// The operations that have a pattern, as classes name them.
const OPERATIONS: [&str; 2] = ["=~", "!~"];

/// The operation and the flag of a matcher that has a pattern.
fn flagged(matcher: &Matcher) -> Option<(&'static str, bool)> {
    match matcher.operation {
        Operation::Equal | Operation::NotEqual => None,
        Operation::Regex(flag) => Some((OPERATIONS[0], flag)),
        Operation::NotRegex(flag) => Some((OPERATIONS[1], flag)),
    }
}

impl Coverage {
    pub(super) fn patterns(&mut self, worked: &Worked) {
        self.flag_order(worked);
        for record in &worked.records {
            let Record::Selector { matchers, .. } = record else {
                continue;
            };
            self.wrong_places(matchers);
            for matcher in matchers {
                self.pattern(worked, matcher);
            }
        }
    }

    fn pattern(&mut self, worked: &Worked, matcher: &Matcher) {
        let Some((operation, flag)) = flagged(matcher) else {
            return;
        };
        let pattern = matcher.value.text.as_ref();
        self.full_pattern(pattern, flag);
        match (covered::read(pattern), Uncovered::find(pattern.as_bytes())) {
            (Some(tree), None) => {
                let matches_empty = self.shape(&tree);
                let is_right = self.covered_flag(matcher, operation, flag);
                assert_eq!(is_right, flag == matches_empty, "{pattern}");
            }
            (None, Some(found)) if worked.checked.is_some() => {
                self.uncovered(matcher, operation, flag, found);
            }
            (None, Some(_)) => {}
            _ => panic!("the two readings of '{pattern}' differ"),
        }
    }
}
