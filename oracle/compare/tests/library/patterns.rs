//! The comparison of patterns passes a library that answers as the oracle does, and finds those that read patterns
//! wrongly or judge their flags wrongly.

use crate::standin::{self, patterns};
use compare::library::Library;
use compare::patterns::{compare, Sizes};

const SIZES: Sizes = Sizes {
    signs: 4,
    signs_in_pages: 2,
    random: 3_000,
};

#[test]
fn the_oracles_words_pass() {
    let tally = compare(standin::whole(), SIZES).expect("no difference");
    let listed = tally.listed;
    assert_eq!((listed.patterns, listed.covered), (4_681, 475));
    assert_eq!(listed.pages, 4 * (1 + 8 + 64));
    assert_eq!(
        (tally.random.patterns, tally.random.pages),
        (3_000, 4 * 150)
    );
    for count in [tally.listed, tally.random, tally.nests] {
        let unmatched = count.covered - count.matching;
        assert!(count.matching > 100 && unmatched > 100, "{count:?}");
        assert!(count.patterns > count.covered + 500, "{count:?}");
    }
}

#[test]
fn wrong_readings_are_found() {
    compare(patterns::sound(), SIZES).expect("no difference");
    for (words, library) in patterns::faulty() {
        let found = compare(library, SIZES).err();
        let difference = found.unwrap_or_else(|| panic!("not found: {words}"));
        assert!(difference.contains("\npattern: "), "{words}: {difference}");
    }
}

/// The call for patterns is right, and check does not ask it.
#[test]
fn flags_that_are_not_tested_are_found() {
    extern "C" fn believes(_: *const u8, _: usize) -> u64 {
        0
    }
    let library = Library {
        check: believes,
        ..standin::whole()
    };
    let difference = compare(library, SIZES).expect_err("41 is never said");
    assert!(difference.contains("\npage: "), "{difference}");
}
