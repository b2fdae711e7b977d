//! Covered patterns, made as the request says: a choice of sequences, a sequence of items, items that may hold a
//! choice.

use crate::random::Random;

/// Letters, digits and the other characters that are items by themselves, with the ends of their ranges.
const SINGLES: &[u8] = b"abmxzABMXZ0159__--..";

/// A covered pattern of at most so many bytes.
pub fn covered(random: &mut Random, most: usize) -> String {
    let left_out = *random.pick(&[10, 50, 95]);
    Spelling { random, left_out }.choice(most)
}

struct Spelling<'r> {
    random: &'r mut Random,
    /// Of a hundred items so many may be left out, by `*` or `?`.
    left_out: usize,
}

impl Spelling<'_> {
    fn choice(&mut self, most: usize) -> String {
        let sequences = match self.random.below(6) {
            0 => self.random.between(3, 5),
            1 | 2 => 2,
            _ => 1,
        };
        let mut choice = self.sequence(most);
        for _ in 1..sequences {
            if choice.len() < most {
                choice.push('|');
                choice += &self.sequence(most - choice.len());
            }
        }
        choice
    }

    /// Nothing, a few bytes, or all that there is room for.
    fn sequence(&mut self, most: usize) -> String {
        let wanted = match self.random.below(8) {
            0 => 0,
            1 => most,
            _ => self.random.between(0, most.min(8)),
        };
        let mut sequence = String::new();
        while sequence.len() < wanted {
            sequence += &self.item(wanted - sequence.len());
        }
        sequence
    }

    fn item(&mut self, most: usize) -> String {
        let mut item = match self.random.below(5) {
            0 | 1 if most >= 2 => format!("({})", self.choice(most - 2)),
            _ => char::from(*self.random.pick(SINGLES)).to_string(),
        };
        if item.len() < most {
            item.extend(self.repeat());
        }
        item
    }

    fn repeat(&mut self) -> Option<char> {
        match self.random.chance(self.left_out) {
            true => Some(*self.random.pick(&['*', '?'])),
            false => self.random.chance(25).then_some('+'),
        }
    }
}
