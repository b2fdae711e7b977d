//! Ill-formed texts (document 02, No. 10): every fault in every kind of text, with bytes of the text after it and
//! without, and with the bytes after the text that would complete it. Names too.

use super::alphabet::{LONGER, TOWNS};
use super::carriers::Page;
use super::{Generator, Made, Scope};
use crate::ill_formed::IllFormed;
use crate::page::text_kind::TextKind;
use crate::random::Random;

/// The seed of the fixed texts.
const SEED: u64 = 10;

fn tail(random: &mut Random) -> u8 {
    0x80 | random.byte() & 0x3f
}

/// One of so many bytes from this one on, and so many tails after it.
fn tailed<const TAILS: usize>(
    random: &mut Random,
    begin: &[u8],
    from: u8,
    choices: usize,
) -> Vec<u8> {
    let mut bytes = begin.to_vec();
    bytes.push(from + random.below(choices) as u8);
    bytes.extend([0; TAILS].map(|_| tail(random)));
    bytes
}

/// The fault in place of a character.
fn spoiled(random: &mut Random, character: char, fault: IllFormed) -> Vec<u8> {
    let mut whole = character.to_string().into_bytes();
    match fault {
        IllFormed::CutByEnd | IllFormed::CutByCharacter => {
            whole.truncate(random.between(1, whole.len() - 1));
            if fault == IllFormed::CutByCharacter {
                whole.extend(random.pick(&["v", "é", "\u{10ffff}"]).bytes());
            }
            whole
        }
        IllFormed::OverlongOfTwo => tailed::<1>(random, &[], 0xc0, 2),
        IllFormed::OverlongOfThree => tailed::<1>(random, &[0xe0], 0x80, 0x20),
        IllFormed::OverlongOfFour => tailed::<2>(random, &[0xf0], 0x80, 0x10),
        IllFormed::Surrogate => tailed::<1>(random, &[0xed], 0xa0, 0x20),
        IllFormed::AboveBySecond => tailed::<2>(random, &[0xf4], 0x90, 0x30),
        IllFormed::AboveByFirst => tailed::<3>(random, &[], 0xf5, 11),
        IllFormed::LoneTail => vec![tail(random)],
        IllFormed::TailTooMany => {
            whole.push(tail(random));
            whole
        }
    }
}

/// A text with this fault between good characters; nothing stands after a fault that ends the text.
fn text(random: &mut Random, fault: IllFormed, is_followed: bool, around: [&str; 2]) -> Vec<u8> {
    let [before, after] = around;
    let mut text = before.as_bytes().to_vec();
    if fault == IllFormed::LoneTail && !before.is_empty() {
        text.push(b'v');
    }
    let character = *random.pick(&LONGER);
    text.extend(spoiled(random, character, fault));
    if is_followed {
        text.extend(after.bytes());
    }
    text
}

/// Each fault in each kind of text, bare.
fn bare() -> impl Iterator<Item = Made> {
    let mut random = Random::new(SEED);
    let of_kind = move |kind: TextKind| {
        let page = Page::of(kind);
        let mut made = Vec::new();
        for fault in IllFormed::ALL {
            for is_followed in fault.may_be_followed() {
                let text = text(&mut random, fault, *is_followed, ["v", "v"]);
                made.push(Made::new(page.with(&text, &[]), page.refused(4)));
            }
        }
        made
    };
    TextKind::ALL.into_iter().flat_map(of_kind)
}

/// In each kind of text a character that ends with the text too early; the bytes that it lacks follow on the page.
fn completed() -> impl Iterator<Item = Made> {
    TextKind::ALL.into_iter().flat_map(|kind| {
        let page = Page::of(kind);
        LONGER.map(|character| {
            let bytes = character.to_string().into_bytes();
            let (text, next) = bytes.split_at(bytes.len() - 1);
            Made::new(page.with(text, next), page.refused(4))
        })
    })
}

/// Towns with each fault at their first longer character, as strings, labels and values.
fn towns() -> impl Iterator<Item = Made> {
    let mut random = Random::new(SEED);
    let of_town = move |town: &'static str| {
        let is_longer = |character: char| !character.is_ascii();
        let place = town.find(is_longer).expect("a town beyond ASCII");
        let (before, rest) = town.split_at(place);
        let character = rest.chars().next().expect("its first longer character");
        let after = &rest[character.len_utf8()..];
        let mut made = Vec::new();
        for fault in IllFormed::ALL {
            let wrong = spoiled(&mut random, character, fault);
            let after = if fault == IllFormed::CutByEnd {
                ""
            } else {
                after
            };
            let text = [before.as_bytes(), &wrong, after.as_bytes()].concat();
            made.extend(
                [TextKind::String, TextKind::By, TextKind::MatcherValue].map(|kind| {
                    let page = Page::of(kind);
                    Made::new(page.with(&text, &[]), page.refused(4))
                }),
            );
        }
        made
    };
    TOWNS.into_iter().flat_map(of_town)
}

pub fn fixed() -> impl Iterator<Item = Made> {
    bare().chain(completed()).chain(towns())
}

/// Any fault in any text of a record after good expressions.
pub fn random(random: &mut Random) -> Made {
    let fault = *random.pick(&IllFormed::ALL);
    let is_followed = *random.pick(fault.may_be_followed());
    let kind = *random.pick(&TextKind::ALL);
    let mut generator = Generator::new(random, 8, Scope::Utf8);
    let (before, mut after) = generator.around(kind);
    if is_followed && after.is_empty() {
        after.push('v');
    }
    let text = text(generator.random, fault, is_followed, [&before, &after]);
    let next = generator.next_bytes(fault, &text);
    generator.refused_with(kind, &text, &next)
}

impl Generator<'_> {
    /// Good characters before and after a fault; in a name such as it may have.
    fn around(&mut self, kind: TextKind) -> (String, String) {
        let [before, after] = [0; 2].map(|_| self.random.below(12));
        if kind.is_name() {
            return ("v".repeat(before), "v".repeat(after));
        }
        (self.characters(before), self.characters(after))
    }

    /// What follows on the page: often the tails that a character lacks which the text's end cuts short.
    fn next_bytes(&mut self, fault: IllFormed, text: &[u8]) -> Vec<u8> {
        if fault != IllFormed::CutByEnd || self.random.chance(30) {
            return Vec::new();
        }
        let last = LONGER.map(|character| character.to_string().into_bytes());
        let lacked = last.iter().find_map(|whole| {
            let there = (1..whole.len()).find(|there| text.ends_with(&whole[..*there]))?;
            Some(whole[there..].to_vec())
        });
        lacked.expect("a character of the list was cut short")
    }
}
