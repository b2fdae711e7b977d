//! Rows 11a and 11b, and what the document says of copies beside them.

use crate::document::row;
use crate::search::worked;
use oracle::{answer, hex};
use promql_parser::parser::Expr;

fn tree(page: &[u8]) -> Expr {
    worked(page).checked.expect("an accepted page").0
}

fn copy(notation: &str) -> Vec<u8> {
    let page = hex::bytes(notation);
    answer::answer(&page).expect("the Rust is foreseen").copy
}

#[test]
fn row_11a_the_rust_takes_minus_zero_for_zero() {
    let page = row("11a").page;
    let zero = hex::bytes("000000");
    assert!(tree(&page) == tree(&zero));
    assert_ne!(copy("000100"), copy("000000"));
}

#[test]
fn row_11b_the_rust_takes_a_tree_for_another_than_itself() {
    let page = row("11b").page;
    assert!(tree(&page) != tree(&page));
    assert_eq!(hex::bytes(&hex::text(&page)), copy(&hex::text(&page)));
}

/// Pages with one text and two copies, and with one copy.
#[test]
fn entry_11_copies_are_told() {
    let up = "0202757000";
    for (one, other) in [
        (format!("{up} 050200"), format!("{up} 050301")),
        (format!("{up} 0a1b0001"), format!("{up} 0a1b010001")),
        (
            format!("{up} {up} 0901010000000000"),
            format!("{up} {up} 090101000200000000"),
        ),
        (
            "0202757002 0001610131 0001620132".into(),
            "0202757002 0001620132 0001610131".into(),
        ),
    ] {
        let text = |notation: &str| tree(&hex::bytes(notation)).to_string();
        assert_eq!(text(&one), text(&other));
        assert_ne!(copy(&one), copy(&other));
    }
    let [late, early] = ["060001 0501", "0501 060001"].map(|times| copy(&format!("{up} {times}")));
    assert_eq!(late, early);
}
