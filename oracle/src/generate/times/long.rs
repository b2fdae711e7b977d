//! Pages of many selectors under set operators without a modifier, some of them with offset and then @: each operator
//! makes the copy five bytes longer, so that it can be longer than a page.

use super::super::{Generator, Made};
use crate::answer::Outcome;
use crate::hex;
use crate::page::record::*;
use crate::page::{write, MAX_PAGE_BYTES, MAX_RECORDS};

/// What a set operator without a modifier gains in the copy.
const GAINED: usize = 5;

/// The longest copy of a page that has both times on an expression: 127 selectors, 126 operators and two times.
pub const LONGEST_COPY: usize = MAX_PAGE_BYTES + 126 * GAINED;

/// So many selectors, the first ones with offset and then @.
#[derive(Clone, Copy)]
struct Shape {
    selectors: usize,
    swapped: usize,
}

impl Shape {
    fn records(self) -> usize {
        2 * self.selectors - 1 + 2 * self.swapped
    }

    /// The bytes of a page with names of one letter.
    fn least(self) -> usize {
        4 * self.selectors + 3 * (self.selectors - 1) + 5 * self.swapped
    }

    /// A page of so many bytes, by longer names.
    fn page(self, bytes: usize) -> Made {
        let letters = bytes - self.least();
        let (each, more) = (letters / self.selectors, letters % self.selectors);
        let mut page = Vec::new();
        for place in 0..self.selectors {
            let name = "a".repeat(1 + each + usize::from(place < more));
            let selector = Record::Selector {
                name: Text::from(name.as_str()),
                matchers: Vec::new(),
            };
            write::record(&mut page, &selector);
            if place < self.swapped {
                page.extend(hex::bytes("060001 0501"));
            }
        }
        page.extend(hex::bytes("090600").repeat(self.selectors - 1));
        assert!(page.len() == bytes && self.records() <= MAX_RECORDS);
        Made::new(page, Outcome::Accepted(Kind::Vector))
    }

    /// The page whose copy has so many bytes.
    fn copied(self, bytes: usize) -> Made {
        self.page(bytes - GAINED * (self.selectors - 1))
    }
}

/// As many selectors as there can be if one has both times, as many as can be if all have, and some of both.
const MOST: Shape = Shape {
    selectors: 127,
    swapped: 1,
};
const ALL: Shape = Shape {
    selectors: 64,
    swapped: 64,
};
const SOME: Shape = Shape {
    selectors: 100,
    swapped: 20,
};

/// Both times as the last of 256 records.
fn last() -> Made {
    let page = hex::bytes("0202757000 07*252; 040100 060001 0501");
    Made::new(page, Outcome::Accepted(Kind::Matrix))
}

/// The longest copies, copies of 8,192 bytes and one more, pages of as many; both times on every selector.
fn one_of(place: usize) -> Option<Made> {
    Some(match place {
        0 => MOST.copied(LONGEST_COPY),
        1 => MOST.copied(MAX_PAGE_BYTES),
        2 => MOST.copied(MAX_PAGE_BYTES + 1),
        3 => SOME.page(MAX_PAGE_BYTES),
        4 => SOME.copied(MAX_PAGE_BYTES),
        5 => ALL.page(MAX_PAGE_BYTES),
        6 => ALL.page(ALL.least()),
        7 => last(),
        _ => return None,
    })
}

pub(super) fn fixed() -> impl Iterator<Item = Made> {
    (0..).map_while(one_of)
}

impl Generator<'_> {
    /// A page whose copy has about as many bytes as a page may have, mostly more.
    pub(super) fn long_copy(&mut self) -> Made {
        if let Some(made) = one_of(self.random.below(16)) {
            return made;
        }
        let swapped = self.random.between(1, 20);
        let most = (MAX_RECORDS + 1 - 2 * swapped) / 2;
        let selectors = self.random.between(80, most);
        let shape = Shape { selectors, swapped };
        match self.random.below(4) {
            0 => shape.copied(MAX_PAGE_BYTES),
            1 => shape.copied(MAX_PAGE_BYTES + 1),
            _ => shape.page(MAX_PAGE_BYTES - self.random.below(300)),
        }
    }
}
