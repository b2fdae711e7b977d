//! Right and wrong flags: on the request's patterns with both operations, at every place among up to sixteen matchers,
//! several in one selector, with a name and without.

use super::super::fault::{context, unread};
use super::super::{Generator, Made, Records};
use super::near_misses::near_miss;
use super::selectors::{after, both_flags, true_flag, up, Pattern};
use super::spelling::covered;
use crate::answer::Outcome;
use crate::page::record::*;
use crate::page::write;
use crate::uncovered::Uncovered;

/// The covered patterns of the request's list, and others.
#[rustfmt::skip]
const COVERED: [&str; 48] = [
    "", "a*", "a?", ".*", "a|", "|a", "|", "()", "()+", "(|)", "(a)*", "(a*)+", "(a|b?)c*", "(a|)(b|)", "a", "a+", ".",
    ".+", "a|b", "(a|b)?c", "((a))", "5..", "a-b_C9", "x-y*", "a|b*|c", "a*|b|c", "a|b|c*", "a||b", "(a)+", "(a|b)",
    "(a)?", "()*", "()?", "a*b", "ab*", "a*bc*", "a*b*c", "a*b*c*", "(a*)*", ".?", "9+", "9*", "9?", "_*", "_?",
    "-*", "-+", "Z",
];

fn equal(value: &str) -> Matcher<'static> {
    Matcher {
        operation: Operation::Equal,
        name: Text::from("b"),
        value: Text::from(value),
    }
}

/// Matchers of every form, with flags that are right or believed.
fn others(count: usize) -> impl Iterator<Item = Matcher<'static>> {
    let forms = [
        Pattern::Regex.matcher("x", false),
        equal("x*"),
        Pattern::NotRegex.matcher("(y|z)?", true),
        Pattern::Regex.matcher("[x]", true),
        Pattern::NotRegex.matcher("(x", true),
    ];
    forms.into_iter().cycle().take(count)
}

/// A pattern with the flag that it must not have.
fn wrong(operation: Pattern, flag: bool) -> Matcher<'static> {
    operation.matcher(if flag { "x" } else { "x*" }, flag)
}

/// Among so many matchers each place in turn has a wrong flag.
fn placed(count: usize) -> impl Iterator<Item = Made> {
    let places = (0..count).flat_map(|place| Pattern::BOTH.map(|operation| (place, operation)));
    places.flat_map(move |(place, operation)| {
        [false, true].map(|flag| {
            let mut matchers: Vec<_> = others(count - 1).collect();
            matchers.insert(place, wrong(operation, flag));
            up(matchers)
        })
    })
}

/// Several wrong flags, and none among sixteen matchers.
fn several() -> impl Iterator<Item = Made> {
    let both = Pattern::BOTH.map(|operation| wrong(operation, true));
    let many = vec![both[0].clone(); 16];
    let last = others(14).chain(both.clone()).collect();
    [both.to_vec(), many, last, others(16).collect()]
        .into_iter()
        .map(up)
}

/// Without a name, where the flag decides about 34 too.
fn unnamed() -> impl Iterator<Item = Made> {
    let patterns = ["x", "x*", "", "[x]"].into_iter();
    let operations =
        patterns.flat_map(|pattern| Pattern::BOTH.map(|operation| (pattern, operation)));
    operations.flat_map(|(pattern, operation)| {
        [false, true].map(|flag| {
            let matcher = operation.matcher(pattern, flag);
            after(Records::new(), "", vec![matcher])
        })
    })
}

pub(super) fn fixed() -> impl Iterator<Item = Made> {
    let listed = COVERED.into_iter().flat_map(|pattern| {
        let of_operation = move |operation| both_flags(operation, pattern);
        Pattern::BOTH.into_iter().flat_map(of_operation)
    });
    listed
        .chain([1, 2, 3, 16].into_iter().flat_map(placed))
        .chain(several())
        .chain(unnamed())
}

impl Generator<'_> {
    /// A selector of up to sixteen matchers, of which none, one or several have a wrong flag. A refused one stands
    /// after good expressions and before bytes that no reader gets to.
    pub(super) fn flagged_selector(&mut self) -> Made {
        let matchers = self.flagged_matchers();
        let name = match self.random.chance(75) {
            true => self.metric_name().text.into_owned(),
            false => String::new(),
        };
        let alone = after(Records::new(), &name, matchers.clone());
        if matches!(alone.expected, Outcome::Accepted(_)) {
            return alone;
        }
        let before = context(self, 2);
        let mut made = after(before, &name, matchers);
        made.page.extend(unread(self.random));
        made
    }

    fn flagged_matchers(&mut self) -> Vec<Matcher<'static>> {
        let count = match self.random.below(8) {
            0 => 16,
            1 => self.random.between(1, 16),
            _ => self.random.between(1, 4),
        };
        let wrong = match self.random.below(10) {
            0..=3 => 0,
            4..=7 => 1,
            8 => self.random.between(1, count),
            _ => count,
        };
        let mut matchers: Vec<_> = (wrong..count).map(|_| self.believed_matcher()).collect();
        for _ in 0..wrong {
            let place = self.random.between(0, matchers.len());
            matchers.insert(place, self.wrong_matcher());
        }
        if self.random.chance(10) {
            let place = self.random.below(count);
            matchers[place].name = Text::from("__name__");
        }
        matchers
    }

    /// A matcher of any form; the flag of a covered pattern is right.
    fn believed_matcher(&mut self) -> Matcher<'static> {
        let operation = *self.random.pick(&Pattern::BOTH);
        let mut matcher = match self.random.below(10) {
            0 | 1 => equal(&self.value().text),
            2 | 3 => {
                let how = *self.random.pick(&Uncovered::ALL);
                let pattern = near_miss(self.random, how, 12);
                operation.matcher(&pattern, self.random.chance(50))
            }
            _ => {
                let pattern = covered(self.random, 12);
                operation.matcher(&pattern, true_flag(&pattern))
            }
        };
        matcher.name = self.matcher_name();
        matcher
    }

    /// A covered pattern whose flag is wrong.
    pub(super) fn wrong_matcher(&mut self) -> Matcher<'static> {
        let most = *self.random.pick(&[3, 8, 16]);
        let pattern = covered(self.random, most);
        let operation = *self.random.pick(&Pattern::BOTH);
        let mut matcher = operation.matcher(&pattern, !true_flag(&pattern));
        matcher.name = self.matcher_name();
        matcher
    }

    /// A selector with a wrong flag at any place: 41.
    pub(in crate::generate) fn wrongly_flagged(&mut self) -> Record<'static> {
        let Record::Selector { name, mut matchers } = self.selector() else {
            unreachable!("a selector was asked for")
        };
        matchers.truncate(15);
        let place = self.random.between(0, matchers.len());
        matchers.insert(place, self.wrong_matcher());
        Record::Selector { name, matchers }
    }

    /// The bytes of such a selector.
    pub(super) fn wrongly_flagged_bytes(&mut self) -> Vec<u8> {
        let mut bytes = Vec::new();
        write::record(&mut bytes, &self.wrongly_flagged());
        bytes
    }
}
