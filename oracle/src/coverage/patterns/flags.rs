//! Flags of covered patterns, right and wrong, by operation and by their place in the selector.

use super::super::Coverage;
use super::{flagged, OPERATIONS};
use crate::page::record::Matcher;
use crate::tree::{pattern, Pattern};

const PLACES: [&str; 5] = [
    "the only matcher",
    "the first",
    "one in the middle",
    "the last",
    "the last of sixteen",
];

#[rustfmt::skip]
const NAMED: &[&str] = &[
    "patterns: two wrong flags", "patterns: more wrong flags", "patterns: sixteen wrong flags",
    "patterns: a wrong flag beside a right one", "patterns: a wrong flag beside one that is believed and untrue",
    "patterns: a wrong flag beside a pattern that the regex does not take", "patterns: sixteen matchers, no wrong flag",
];

pub(super) fn classes() -> Vec<String> {
    let mut classes: Vec<String> = NAMED.iter().map(ToString::to_string).collect();
    for operation in OPERATIONS {
        for flag in [false, true] {
            classes.extend([true, false].map(|is_right| judged(operation, flag, is_right)));
            classes.extend(PLACES.map(|place| placed(operation, flag, place)));
        }
    }
    classes
}

fn judged(operation: &str, flag: bool, is_right: bool) -> String {
    let verdict = ["wrong", "right"][usize::from(is_right)];
    format!(
        "patterns: covered, {operation}, flag {} {verdict}",
        u8::from(flag)
    )
}

fn placed(operation: &str, flag: bool, place: &str) -> String {
    format!(
        "patterns: {operation}, flag {} wrong, {place}",
        u8::from(flag)
    )
}

/// The names of a place among so many matchers.
fn places(place: usize, count: usize) -> Vec<&'static str> {
    match (place, count) {
        (0, 1) => vec![PLACES[0]],
        (0, _) => vec![PLACES[1]],
        _ if place + 1 < count => vec![PLACES[2]],
        (_, 16) => vec![PLACES[3], PLACES[4]],
        _ => vec![PLACES[3]],
    }
}

impl Coverage {
    /// Whether the flag of a covered pattern is right.
    pub(super) fn covered_flag(&mut self, matcher: &Matcher, operation: &str, flag: bool) -> bool {
        let is_right = pattern(matcher) == Pattern::FlagTrue;
        self.hit(judged(operation, flag, is_right));
        is_right
    }

    /// Where the wrong flags of a selector stand, and what stands beside them.
    pub(super) fn wrong_places(&mut self, matchers: &[Matcher]) {
        let verdicts: Vec<Pattern> = matchers.iter().map(pattern).collect();
        let count = |verdict| verdicts.iter().filter(|each| **each == verdict).count();
        let wrong = count(Pattern::FlagWrong);
        let has_sixteen = matchers.len() == 16;
        self.hit_if(
            has_sixteen && wrong == 0,
            "patterns: sixteen matchers, no wrong flag",
        );
        if wrong == 0 {
            return;
        }
        self.hit_if(wrong == 2, "patterns: two wrong flags");
        self.hit_if(wrong > 2, "patterns: more wrong flags");
        self.hit_if(wrong == 16, "patterns: sixteen wrong flags");
        for (beside, class) in [
            (
                Pattern::FlagTrue,
                "patterns: a wrong flag beside a right one",
            ),
            (
                Pattern::FlagUntrue,
                "patterns: a wrong flag beside one that is believed and untrue",
            ),
            (
                Pattern::NotTaken,
                "patterns: a wrong flag beside a pattern that the regex does not take",
            ),
        ] {
            self.hit_if(count(beside) > 0, class);
        }
        if wrong == 1 {
            self.wrong_place(matchers, &verdicts);
        }
    }

    fn wrong_place(&mut self, matchers: &[Matcher], verdicts: &[Pattern]) {
        let is_wrong = |verdict: &Pattern| *verdict == Pattern::FlagWrong;
        let place = verdicts.iter().position(is_wrong).expect("one is wrong");
        if let Some((operation, flag)) = flagged(&matchers[place]) {
            for words in places(place, matchers.len()) {
                self.hit(placed(operation, flag, words));
            }
        }
    }
}
