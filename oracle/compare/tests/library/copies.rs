//! The comparison of copies passes a library that copies as the oracle does, and finds those that have two copies of
//! one query, one copy of two, or a copy that is no page.

use crate::standin::{self, copies};
use compare::copies::{compare, sorts, Sizes};
use compare::run;
use oracle::generate;

const SIZES: Sizes = Sizes {
    records: 3,
    seeds: 12,
};

#[test]
fn the_oracles_copies_pass() {
    let sizes = Sizes { seeds: 40, ..SIZES };
    let tallies = compare(standin::whole(), sizes).expect("no difference");
    let (listed, generated) = (tallies.listed, tallies.generated);
    assert!(
        listed.pages > listed.trees && listed.trees > 500,
        "{listed:?}"
    );
    assert!(generated.pages > 10_000 && generated.longer > 50);
    let pairs = generated.pairs;
    assert!(pairs.equal > 500 && pairs.unequal > 2_000, "{pairs:?}");
    let counted: u64 = sorts().map(|sort| pairs.count(sort)).sum();
    assert_eq!(counted, pairs.equal + pairs.unequal);
}

#[test]
fn wrong_copies_are_found() {
    for (words, library) in copies::faulty() {
        let found = compare(library, SIZES).err();
        let difference = found.unwrap_or_else(|| panic!("not found: {words}"));
        assert!(difference.contains("\npage: "), "{words}: {difference}");
    }
}

/// One copy for one query, but not the one that the request asks for: the comparison byte for byte finds it.
#[test]
fn offset_first_is_found() {
    let compared = |library| {
        let pages = generate::times::fixed().map(|made| made.page);
        run::pages(library, pages)
    };
    compared(standin::whole()).expect("no difference");
    let library = copies::offset_first();
    let difference = compared(library).err().expect("offset stands first");
    assert!(difference.starts_with("copy,"), "{difference}");
    let passed = compare(library, Sizes { seeds: 0, ..SIZES });
    assert!(passed.is_err_and(|words| words.starts_with("never occurred")));
}

/// Wrong orders are found by the fixed pages with @ and offset alone.
#[test]
fn wrong_orders_are_found() {
    for (words, library) in copies::wrong_orders() {
        let pages = generate::times::fixed().map(|made| made.page);
        let found = run::pages(library, pages).err();
        let difference = found.unwrap_or_else(|| panic!("not found: {words}"));
        assert!(difference.starts_with("copy,"), "{words}: {difference}");
    }
}
