//! Characters of texts beyond ASCII (document 02, No. 10): towns, the edges of every row of RFC 3629's grammar, white
//! and unprintable characters, any others.

use super::{Generator, Scope};
use crate::page::record::Text;

pub const TOWNS: [&str; 4] = ["Zürich", "Orléans", "北京", "😀"];

/// The first and the last character of each row, and some that a porter may take for white, for a break or for nothing.
#[rustfmt::skip]
pub const EDGES: [char; 27] = [
    '\u{0}', '\u{7f}', '\u{80}', '\u{85}', '\u{9f}', '\u{a0}', '\u{ad}', '\u{7ff}', '\u{800}', '\u{fff}', '\u{1000}',
    '\u{200b}', '\u{2028}', '\u{3000}', '\u{cfff}', '\u{d000}', '\u{d7ff}', '\u{e000}', '\u{feff}', '\u{fffd}',
    '\u{ffff}', '\u{10000}', '\u{3ffff}', '\u{40000}', '\u{fffff}', '\u{100000}', '\u{10ffff}',
];

/// One character of each length above one byte.
pub const LONGER: [char; 3] = ['é', '北', '😀'];

#[rustfmt::skip]
const LETTERS: [char; 12] = ['é', 'ü', 'Ł', 'ñ', 'Α', 'ø', '北', '京', '東', '😀', '🚂', '\u{301}'];

/// Labels that are alike: two spellings of one accent, letters before and after it, the last character of three bytes
/// and the first of four.
#[rustfmt::skip]
pub(super) const LABELS: &[&str] = &[
    "é", "e\u{301}", "ü", "éa", "aé", "é b", "_é", "北京", "😀", "\u{ffff}", "\u{10000}", "ville", "zz", "a b", "",
];

#[rustfmt::skip]
pub(super) const PATTERNS: &[&str] = &[
    "é", "é*", "é+", "é?", "(é|ü)*", "é|", "[é-ü]", "[^é]*", "é{2}", "é{0,2}", "北京", "北.*", "😀?", "(?i)É", "\u{2028}",
];

/// One accent, as one character and as a letter with a combining one: two texts.
pub const SPELLINGS: [&str; 2] = ["é", "e\u{301}"];

/// The spelling that a list has not, if it has the other.
pub(super) fn other_spelling(labels: &[Text]) -> Option<Text<'static>> {
    let has = |spelling: &str| labels.iter().any(|label| label.text == spelling);
    match SPELLINGS.map(has) {
        [true, false] => Some(Text::from(SPELLINGS[1])),
        [false, true] => Some(Text::from(SPELLINGS[0])),
        _ => None,
    }
}

impl Generator<'_> {
    /// A character of two to four bytes, of at most so many.
    fn longer(&mut self, most: usize) -> char {
        loop {
            let character = match self.random.below(4) {
                0 | 1 => *self.random.pick(&LETTERS),
                2 => *self.random.pick(&EDGES),
                _ => self.scalar_value(),
            };
            if (2..=most).contains(&character.len_utf8()) {
                return character;
            }
        }
    }

    /// Any scalar value of two to four bytes, each length as often.
    fn scalar_value(&mut self) -> char {
        let ranges = [(0x80, 0x7ff), (0x800, 0xffff), (0x10000, 0x10ffff)];
        let (low, high) = *self.random.pick(&ranges);
        loop {
            if let Some(character) = char::from_u32(self.random.between(low, high) as u32) {
                return character;
            }
        }
    }

    /// Characters of so many bytes in all: longer ones among ASCII, more or fewer of them.
    pub fn characters(&mut self, bytes: usize) -> String {
        let share = *self.random.pick(&[4, 20, 60, 100]);
        let mut text = String::new();
        while text.len() < bytes {
            let room = bytes - text.len();
            text.push(match self.random.chance(share) {
                true if room > 1 => self.longer(room),
                _ if self.random.chance(20) => *self.random.pick(&['"', '\\', '\n', '\r', '\t']),
                _ => char::from(self.random.byte() & 0x7f),
            });
        }
        text
    }

    /// A town, a label of the list or any characters; in the scope of document 01 nothing, and no number is drawn.
    pub(super) fn beyond_ascii(&mut self, listed: &[&'static str]) -> Option<Text<'static>> {
        if self.scope == Scope::Base {
            return None;
        }
        match self.random.below(6) {
            0 => None,
            1 => Some(self.listed(&TOWNS)),
            2 | 3 => Some(self.listed(listed)),
            _ => {
                let length = self.length(0);
                Some(Text::from(self.characters(length).as_str()))
            }
        }
    }
}
