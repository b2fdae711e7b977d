//! The comparison passes a library that judges parameters as the oracle does, and finds those whose check that follows
//! the operators document is wrong.

use crate::standin::{self, operators};
use compare::operators::{compare, Sizes};
use compare::run;
use oracle::generate;

/// A few pairs and random pages; all fixed ones are tried whatever is asked for.
const SIZES: Sizes = Sizes {
    step: 29,
    random: 500,
};

#[test]
fn the_oracles_answers_pass() {
    for library in [standin::whole(), operators::sound()] {
        let tally = compare(library, SIZES).expect("no difference");
        assert!(tally.pages > 2_000, "{tally:?}");
        assert!(tally.refused > 500, "{tally:?}");
        assert!(tally.calls > 10 * tally.pages, "{tally:?}");
    }
}

/// Wrong checks are found by the fixed pages with limitk and limit_ratio alone.
#[test]
fn wrong_checks_are_found() {
    let compared = |library| {
        let pages = generate::operators::fixed().map(|made| made.page);
        run::pages(library, pages)
    };
    compared(standin::whole()).expect("no difference");
    for (words, library) in operators::faulty_checks() {
        let found = compared(library).err();
        let difference = found.unwrap_or_else(|| panic!("not found: {words}"));
        assert!(
            difference.starts_with("check_operators,"),
            "{words}: {difference}"
        );
        assert!(difference.contains("\npage: "), "{words}: {difference}");
    }
}

/// Check in the place of the added one, and the added one in the place of check.
#[test]
fn one_check_for_both_is_found() {
    let whole = standin::whole();
    let never = compare::library::Library {
        check_operators: whole.check,
        ..whole
    };
    let difference = compare(never, SIZES).expect_err("42 is never said");
    assert!(difference.starts_with("check_operators,"), "{difference}");
    let always = compare::library::Library {
        check: whole.check_operators,
        ..whole
    };
    let difference = compare(always, SIZES).expect_err("check says 42");
    assert!(difference.starts_with("check,"), "{difference}");
}
