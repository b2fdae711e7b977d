//! The comparison passes a library that answers for the two generations as the oracle does, and finds those whose
//! checks with their tables are wrong, or what they say of which generations accept.

use crate::standin::{self, generations};
use compare::generations::{compare, Sizes};
use compare::library::Library;
use compare::run;
use oracle::generate::stream;

/// A few of the near and paired pages, and random ones; all fixed ones are tried whatever is asked for.
const SIZES: Sizes = Sizes {
    step: 29,
    random: 500,
};

#[test]
fn the_oracles_answers_pass() {
    for library in [standin::whole(), generations::sound()] {
        let tally = compare(library, SIZES).expect("no difference");
        assert!(tally.pages > 2_000, "{tally:?}");
        assert!(tally.older > 100 && tally.newer > 100, "{tally:?}");
        assert!(tally.both > 100, "{tally:?}");
        assert!(tally.older + tally.newer + tally.both < tally.pages);
        assert!(tally.calls > 14 * tally.pages, "{tally:?}");
    }
}

/// The difference from the oracle's answers on the chosen and fixed pages alone.
fn found(library: Library) -> Result<(), String> {
    let pages = stream::of_generations().map(|sample| sample.page);
    run::pages(library, pages).map(|_| ())
}

fn assert_found(words: &str, blamed: &str, library: Library) {
    let found = found(library).err();
    let difference = found.unwrap_or_else(|| panic!("not found: {words}"));
    assert!(difference.starts_with(blamed), "{words}: {difference}");
    assert!(difference.contains("\npage: "), "{words}: {difference}");
}

#[test]
fn wrong_checks_are_found() {
    for (words, blamed, library) in generations::faulty_checks() {
        assert_found(&words, blamed, library);
    }
}

#[test]
fn wrong_answers_are_found() {
    for (words, library) in generations::faulty_answers() {
        assert_found(words, "generations,", library);
    }
}

/// One check in the place of both, the repository's table among them, and one in the place of the answer.
#[test]
fn one_check_for_several_is_found() {
    let whole = standin::whole();
    for (blamed, library) in [
        (
            "check_newer,",
            Library {
                check_newer: whole.check_older,
                ..whole
            },
        ),
        (
            "check_older,",
            Library {
                check_older: whole.check_table,
                check_newer: whole.check_table,
                ..whole
            },
        ),
        (
            "check_table,",
            Library {
                check_table: whole.check_newer,
                ..whole
            },
        ),
        (
            "generations,",
            Library {
                generations: whole.check_newer,
                ..whole
            },
        ),
    ] {
        let difference = compare(library, SIZES).expect_err("one check for another");
        assert!(difference.starts_with(blamed), "{blamed} {difference}");
    }
}
