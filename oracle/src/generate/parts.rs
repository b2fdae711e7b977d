//! Parts of records: literals, times, selectors, modifiers, groupings.

use super::fractions::fills::Fills;
use super::{alphabet, Generator};
use crate::page::code::{is_comparison, is_set_operator};
use crate::page::record::*;
use crate::page::{MAX_AT_MILLISECONDS, MAX_NUMBER};

/// Unit lengths in milliseconds, and sums around them.
const DURATIONS: &[u64] = &[
    0,
    1,
    999,
    1_000,
    1_500,
    60_000,
    300_000,
    3_600_000,
    86_400_000,
    86_400_001,
    604_800_000,
    31_536_000_000,
    32_054_400_000,
    32_140_800_000,
    63_072_000_000,
    90_061_001,
];

impl Generator<'_> {
    /// A whole number of any size up to 2^53.
    pub fn magnitude(&mut self) -> u64 {
        match self.random.below(8) {
            0 => 0,
            1 => MAX_NUMBER - self.random.word() % 3,
            2 => self.random.word() % MAX_NUMBER,
            3 => 10u64.pow(self.random.below(16) as u32),
            _ => self.random.word() % 100,
        }
    }

    pub fn literal(&mut self) -> Number {
        if self.draws_fraction() {
            return self.signed_fraction();
        }
        match self.random.below(8) {
            0 => Number::NaN,
            1 => Number::Inf,
            2 => Number::NegativeInf,
            3 | 4 => Number::NegativeWhole(self.magnitude()),
            _ => Number::Whole(self.magnitude()),
        }
    }

    pub fn duration(&mut self) -> u64 {
        match self.random.below(6) {
            0 => self.random.word() % MAX_NUMBER,
            1 => self.random.word() % 100_000_000,
            2 => *self.random.pick(DURATIONS) * self.random.between(1, 9) as u64,
            _ => *self.random.pick(DURATIONS),
        }
    }

    pub fn at(&mut self) -> At {
        let time = match self.random.below(4) {
            0 => MAX_AT_MILLISECONDS - self.random.word() % 2,
            1 => self.random.word() % 3,
            _ => self.random.word() % MAX_AT_MILLISECONDS,
        };
        match self.random.below(4) {
            0 => At::Start,
            1 => At::End,
            2 => At::After(time),
            _ => At::Before(time.max(1)),
        }
    }

    pub fn offset(&mut self) -> Record<'static> {
        Record::Offset {
            is_minus: self.random.chance(50),
            milliseconds: self.duration(),
        }
    }

    /// How many elements a list has: mostly few.
    pub fn few(&mut self) -> usize {
        match self.random.below(10) {
            0 if self.room > 8 => self.random.between(3, 16),
            1..=3 => 0,
            4..=7 => 1,
            _ => 2,
        }
    }

    fn matcher(&mut self) -> Matcher<'static> {
        let name = self.matcher_name();
        let (operation, value) = self.operation();
        Matcher {
            operation,
            name,
            value,
        }
    }

    /// A matcher that does not accept empty text, as a selector without a name needs one.
    fn telling_matcher(&mut self) -> Matcher<'static> {
        loop {
            let mut matcher = self.matcher();
            if self.random.chance(20) {
                matcher.name = Text::from("__name__");
            }
            if !matcher.accepts_empty() {
                return matcher;
            }
        }
    }

    pub fn selector(&mut self) -> Record<'static> {
        let count = self.few();
        let mut matchers: Vec<_> = (0..count).map(|_| self.matcher()).collect();
        if count > 1 && self.random.chance(20) {
            matchers[0] = matchers[1].clone();
        }
        let name = if self.random.chance(75) {
            self.metric_name()
        } else {
            let place = self.random.between(0, count.min(15));
            matchers.truncate(15);
            matchers.insert(place, self.telling_matcher());
            Text::from("")
        };
        Record::Selector { name, matchers }
    }

    pub fn labels(&mut self) -> Labels<'static> {
        let count = self.few();
        (0..count).map(|_| self.label()).collect()
    }

    fn fills(&mut self) -> Fills {
        if self.draws_fraction() {
            return self.fraction_fills();
        }
        match self.random.below(10) {
            0 => (Some(self.literal()), None),
            1 => (None, Some(self.literal())),
            2 => (Some(self.literal()), Some(self.literal())),
            3 => {
                let both = self.literal();
                (Some(both), Some(both))
            }
            4 => (Some(Number::Whole(0)), Some(Number::NegativeWhole(0))),
            _ => (None, None),
        }
    }

    /// A modifier that passes between operands of these kinds under this code.
    pub fn modifier(&mut self, code: u8, left: Kind, right: Kind) -> Option<Modifier<'static>> {
        let are_scalars = left == Kind::Scalar && right == Kind::Scalar;
        let are_vectors = left == Kind::Vector && right == Kind::Vector;
        let needs_bool = is_comparison(code) && are_scalars;
        if !needs_bool && self.random.chance(40) {
            return None;
        }
        let matching = self.matching(are_vectors);
        let cardinality = self.cardinality(&matching, is_set_operator(code));
        let (left_fill, right_fill) = self.fills();
        Some(Modifier {
            is_bool: needs_bool || is_comparison(code) && self.random.chance(50),
            matching,
            cardinality,
            left_fill,
            right_fill,
        })
    }

    fn matching(&mut self, may_have_labels: bool) -> Matching<'static> {
        let labels = if may_have_labels {
            self.labels()
        } else {
            Vec::new()
        };
        match self.random.below(3) {
            0 => Matching::None,
            1 => Matching::On(labels),
            _ => Matching::Ignoring(labels),
        }
    }

    fn cardinality(&mut self, matching: &Matching, is_set: bool) -> Cardinality<'static> {
        let mut group = self.labels();
        if let Matching::On(on) = matching {
            group.retain(|label| on.iter().all(|each| each.text != label.text));
            if let Some(label) = alphabet::other_spelling(on) {
                group.truncate(15);
                group.push(label);
            }
        }
        match self.random.below(if is_set { 2 } else { 4 }) {
            0 => Cardinality::OneToOne,
            1 => Cardinality::ManyToMany,
            2 => Cardinality::GroupLeft(group),
            _ => Cardinality::GroupRight(group),
        }
    }

    pub fn grouping(&mut self) -> Grouping<'static> {
        match self.random.below(3) {
            0 => Grouping::None,
            1 => Grouping::By(self.labels()),
            _ => Grouping::Without(self.labels()),
        }
    }
}
