//! Bytes are counted, not characters (document 02, No. 10): texts of as many bytes as they may have and of more,
//! whole, cut short and ill-formed; and expressions of 100 and 101 bytes in fewer characters.

use super::alphabet::LONGER;
use super::carriers::Page;
use super::well_formed::taken;
use super::{Generator, Made, Scope};
use crate::answer::Outcome;
use crate::page::record::{Grouping, Kind, Record, Text};
use crate::page::text_kind::TextKind;
use crate::page::write;
use crate::random::Random;

/// So many bytes, that end in a longer character: as many of it as fit, after a few letters.
fn filled(character: char, bytes: usize) -> String {
    let size = character.len_utf8();
    "v".repeat(bytes % size) + &character.to_string().repeat(bytes / size)
}

/// As many bytes as a text may have, the last character whole or cut short; one byte more.
fn at_the_limit(kind: TextKind) -> impl Iterator<Item = Made> {
    let limit = kind.limit() as usize;
    LONGER.into_iter().flat_map(move |character| {
        let page = Page::of(kind);
        let longer = filled(character, limit + 1);
        let cut = &longer.as_bytes()[..limit];
        [
            taken(kind, &filled(character, limit)),
            Made::new(page.with(cut, &[]), page.refused(4)),
            Made::new(page.with(longer.as_bytes(), &[]), page.refused(3)),
        ]
    })
}

/// `sum by ("ééé..") (mmm..)`, so many bytes in all.
fn sum(label: &str, bytes: usize) -> Made {
    let around = "sum by (\"\") ()".len();
    let name = "m".repeat(bytes - around - label.len());
    let selector = Record::Selector {
        name: Text::from(name.as_str()),
        matchers: Vec::new(),
    };
    let sum = Record::Aggregate {
        code: 27,
        grouping: Grouping::By(vec![Text::from(label)]),
        arguments: 1,
    };
    let page = write::page(&[selector, sum]);
    Made::new(page, Outcome::Accepted(Kind::Vector))
}

pub fn fixed() -> impl Iterator<Item = Made> {
    let limits = TextKind::ALL.into_iter().flat_map(at_the_limit);
    let sums = LONGER.into_iter().flat_map(|character| {
        let label = filled(character, 40);
        [100, 101].map(|bytes| sum(&label, bytes))
    });
    limits.chain(sums)
}

/// A text around the limit of its kind.
pub fn random(random: &mut Random) -> Made {
    let kind = *random.pick(&TextKind::ALL);
    let limit = kind.limit() as usize;
    let mut generator = Generator::new(random, 255, Scope::Utf8);
    let character = *generator.random.pick(&LONGER);
    let before = generator.characters(limit - character.len_utf8());
    let whole = before + &character.to_string();
    let page = Page::of(kind);
    let more = generator.random.between(1, 40);
    match generator.random.below(5) {
        0 => taken(kind, &whole),
        1 => {
            let cut = &whole.as_bytes()[..limit - 1];
            Made::new(page.with(&[b"v", cut].concat(), &[]), page.refused(4))
        }
        2 => {
            let text = generator.characters(more) + &whole;
            Made::new(page.with(text.as_bytes(), &[]), page.refused(3))
        }
        3 => {
            let text = [&vec![0xbf; more], whole.as_bytes()].concat();
            Made::new(page.with(&text, &[]), page.refused(3))
        }
        _ => Made::new(cut_page(&page, &whole, more), page.refused(1)),
    }
}

/// A sum of so many bytes in fewer characters.
pub fn random_sum(random: &mut Random, bytes: usize) -> Made {
    let character = *random.pick(&LONGER);
    let length = random.between(character.len_utf8(), bytes - 20);
    sum(&filled(character, length), bytes)
}

/// A page that ends inside a text which would be too long, and inside a character of it.
fn cut_page(page: &Page, whole: &str, more: usize) -> Vec<u8> {
    let text = whole.as_bytes();
    let there = &text[..text.len() - 1];
    let mut cut = page.with(&[text, &vec![b'v'; more]].concat(), &[]);
    let begin = cut.windows(there.len()).position(|part| part == there);
    cut.truncate(begin.expect("the text stands on the page") + there.len());
    cut
}
