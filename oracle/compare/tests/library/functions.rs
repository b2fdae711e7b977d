//! The comparison passes a library that answers about the function table as the oracle does, and finds those whose
//! check with the table or whose signatures are wrong.

use crate::standin::{self, functions};
use compare::functions::compare;
use compare::run;
use oracle::{functions as table, generate};

/// A few random names; all others are tried whatever is asked for.
const RANDOM: u64 = 1_000;

#[test]
fn the_oracles_answers_pass() {
    let tally = compare(standin::whole(), RANDOM).expect("no difference");
    assert!(tally.known >= table::names().count() as u64);
    assert!(tally.unknown > 7_000, "{tally:?}");
    assert_eq!(tally.calls % 2, 0);
    assert!(tally.calls > 2 * 11 * (tally.known + tally.unknown - 1));
    assert!(
        tally.refused > 15_000 && tally.refused < tally.pages,
        "{tally:?}"
    );
}

/// Wrong checks with the table are found by the fixed pages with calls alone.
#[test]
fn wrong_checks_are_found() {
    let compared = |library| {
        let pages = generate::functions::fixed().map(|made| made.page);
        run::pages(library, pages)
    };
    compared(standin::whole()).expect("no difference");
    for (words, library) in functions::faulty_checks() {
        let found = compared(library).err();
        let difference = found.unwrap_or_else(|| panic!("not found: {words}"));
        assert!(
            difference.starts_with("check_table,"),
            "{words}: {difference}"
        );
        assert!(difference.contains("\npage: "), "{words}: {difference}");
    }
}

#[test]
fn wrong_signatures_are_found() {
    for (words, library) in functions::faulty_signatures() {
        let found = compare(library, 0).err();
        let difference = found.unwrap_or_else(|| panic!("not found: {words}"));
        assert!(
            difference.starts_with("signature,"),
            "{words}: {difference}"
        );
        assert!(difference.contains("\nname: "), "{words}: {difference}");
    }
}

/// The call for signatures is right, and the check does not ask the table.
#[test]
fn a_table_that_is_not_asked_is_found() {
    let whole = standin::whole();
    let library = compare::library::Library {
        check_table: whole.check,
        ..whole
    };
    let difference = compare(library, 0).expect_err("37 and 38 are never said");
    assert!(difference.starts_with("check_table,"), "{difference}");
}
