//! The comparison of fractions passes a library that prints as the oracle does, and finds those that print or compare
//! them wrongly.

use crate::standin::{self, fraction_texts};
use compare::fractions::{compare, Sizes, Tally};

const SIZES: Sizes = Sizes {
    listed: 300,
    random: 5_000,
    pairs: 20_000,
};

#[test]
fn the_oracles_texts_pass() {
    let expected = Tally {
        // Both ends, both signs, every count of places; one in ten ends in 0.
        listed: 2 * 2 * 15 * 270,
        random: 2 * 5_000,
        pairs: 20_000,
    };
    assert_eq!(compare(standin::whole(), SIZES), Ok(expected));
}

#[test]
fn wrong_texts_are_found() {
    for (words, library) in fraction_texts::faulty() {
        let found = compare(library, SIZES).err();
        let difference = found.unwrap_or_else(|| panic!("not found: {words}"));
        assert!(difference.contains("\npage: "), "{words}: {difference}");
    }
}
