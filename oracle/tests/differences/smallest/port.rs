//! Rows 1 to 5 and 9 to 12: the port and the Rust.

use super::{is_smallest, TEXTS};
use crate::answers::with_true_flags;
use crate::document::row;
use crate::records::Records;
use crate::search::{beginnings, expressions, worked};
use oracle::answer::{Domain, Outcome, Worked};
use oracle::page::record::*;
use oracle::{generate, hex, refusal, tree};
use promql_parser::parser::Expr;
use std::collections::HashSet;

fn is_refused(worked: &Worked, refusal: u8) -> bool {
    matches!(worked.outcome, Outcome::Refused { number, .. } if number == refusal)
}

#[test]
fn row_1_no_declared_kinds() {
    is_smallest("1", 11, |worked| is_refused(worked, 29));
}

/// Two labels or more stand in both lists, so that the Rust may name either.
fn has_two_common_labels(record: &Record) -> bool {
    let distinct: HashSet<_> = tree::joint_labels(record)
        .map(|label| &label.text)
        .collect();
    distinct.len() >= 2
}

/// A row whose page is two operands of two bytes and an operator: with these operands no shorter operator shows it. Three
/// bytes make one expression at most, so no two operands are shorter.
fn is_smallest_operator(name: &str, texts: &'static [&'static str], shows: fn(&Worked) -> bool) {
    let page = row(name).page;
    let operands = hex::bytes("0002 0002");
    assert!(page.starts_with(&operands) && shows(&worked(&page)));
    let found = |limit: usize| {
        let operators = Records { limit, texts }.of_kind(9);
        let mut pages = operators
            .iter()
            .map(|operator| [&operands, operator.as_slice()].concat());
        pages.any(|page| shows(&worked(&page)))
    };
    let length = page.len() - operands.len();
    assert!(!found(length - 1) && found(length));
}

#[test]
fn three_bytes_make_one_expression_at_most() {
    let mut pages = beginnings(3, TEXTS).into_iter();
    assert!(pages.all(|page| expressions(&page) < 2));
}

#[test]
fn row_2_two_common_labels() {
    is_smallest_operator("2", &["", "a"], |worked| {
        is_refused(worked, 19) && worked.records.last().is_some_and(has_two_common_labels)
    });
}

#[test]
fn row_4a_untrue_flag() {
    is_smallest("4a", 2, |page| {
        let true_page = with_true_flags(&page.records);
        page.domain == Domain::FlagUntrue
            && true_page.is_some_and(|true_page| worked(&true_page).outcome != page.outcome)
    });
}

#[test]
fn row_4b_pattern_not_taken() {
    is_smallest("4b", 2, |page| page.domain == Domain::PatternNotTaken);
}

/// A letter and a repeat without its lower count.
fn repeats_from_nothing(page: &Worked) -> bool {
    let Some(Record::Selector { matchers, .. }) = page.records.last() else {
        return false;
    };
    let is_regex = |matcher: &&Matcher| {
        matches!(
            matcher.operation,
            Operation::Regex(_) | Operation::NotRegex(_)
        )
    };
    matchers.iter().filter(is_regex).any(|matcher| {
        let after_letter = matcher.value.text.split_once("a{,").map(|(_, after)| after);
        after_letter.is_some_and(|after| after.starts_with("3}"))
    })
}

#[test]
fn row_4c_repeat_without_lower_count() {
    is_smallest("4c", 2, repeats_from_nothing);
}

/// Every byte string of at most two bytes is tried.
#[test]
fn entry_5_smallest_refused_pages() {
    for (number, refusal) in [("5a", 1), ("5b", 2), ("5c", 3), ("5d", 4)] {
        let page = row(number).page;
        let mut shorter = generate::shortest().filter(|each| each.len() < page.len());
        assert!(page.len() <= 3 && is_refused(&worked(&page), refusal));
        assert!(!shorter.any(|page| is_refused(&worked(&page), refusal)));
        assert_eq!(worked(&page).message, None);
    }
}

/// A fraction that is no float: its digits are no multiple of five to the power of places, so that twos do not suffice.
fn is_no_float(page: &Worked) -> bool {
    let Some(Record::Number(number)) = page.records.last() else {
        return false;
    };
    let Some((fraction, _)) = number.fraction() else {
        return false;
    };
    !fraction
        .digits()
        .is_multiple_of(5u64.pow(fraction.places() as u32))
}

#[test]
fn row_9_fraction_that_is_no_float() {
    is_smallest("9", 0, is_no_float);
}

#[test]
fn row_10_wrong_flag() {
    is_smallest("10", 2, |page| is_refused(page, refusal::WRONG_FLAG));
}

/// A tree that is another one to the Rust's `==` only by the sign of 0.
#[test]
fn row_11a_minus_zero() {
    is_smallest("11a", 0, |page| {
        let is_zero = |number: f64| number == 0.0 && number.is_sign_negative();
        matches!(&page.checked, Some((Expr::NumberLiteral(number), _)) if is_zero(number.val))
    });
}

#[test]
fn row_11b_tree_that_is_not_itself() {
    is_smallest_operator("11b", TEXTS, |worked| {
        let tree = worked.checked.as_ref().map(|(tree, _)| tree);
        tree != tree.cloned().as_ref()
    });
}

/// Whether the check with the function table refuses the page so.
fn is_refused_by_table(page: &Worked, refusal: u8) -> bool {
    matches!(page.table, Outcome::Refused { number, .. } if number == refusal)
}

#[test]
fn row_12a_unknown_function() {
    is_smallest("12a", 11, |page| {
        is_refused_by_table(page, refusal::UNKNOWN_FUNCTION)
    });
}

#[test]
fn row_12b_unlike_signature() {
    is_smallest("12b", 11, |page| {
        is_refused_by_table(page, refusal::UNLIKE_SIGNATURE)
    });
}
