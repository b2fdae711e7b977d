//! Rows 6 to 8, A17, E4 and E5: the Rust, and the documents and servers of Prometheus.

use super::is_smallest;
use crate::document::row;
use crate::search::worked;
use oracle::answer::Worked;
use oracle::hex;
use oracle::page::code::is_set_operator;
use oracle::page::record::*;
use promql_parser::parser::token::{T_LIMITK, T_LIMIT_RATIO};
use promql_parser::parser::value::ValueType;
use promql_parser::parser::Expr;

fn tree<'w>(worked: &'w Worked) -> Option<&'w Expr> {
    worked.checked.as_ref().map(|(tree, _)| tree)
}

/// An accepted limitk or limit_ratio whose parameter is no scalar.
fn has_parameter_of_other_kind(page: &Worked) -> bool {
    let Some(Expr::Aggregate(aggregate)) = tree(page) else {
        return false;
    };
    let parameter = aggregate.param.as_ref();
    [T_LIMITK, T_LIMIT_RATIO].contains(&aggregate.op.id())
        && parameter.is_some_and(|parameter| parameter.value_type() != ValueType::Scalar)
}

#[test]
fn row_6_parameter_of_any_kind() {
    is_smallest("6", 10, has_parameter_of_other_kind);
}

/// The places of the arguments that an accepted call has and whose kind is not the declared one.
fn excused(page: &Worked) -> Vec<usize> {
    let Some(Expr::Call(call)) = tree(page) else {
        return Vec::new();
    };
    let kinds = &call.func.arg_types;
    let is_excused = |(place, argument): (usize, &Expr)| {
        let declared = kinds.get(place).or(kinds.last())?;
        (argument.value_type() != *declared).then_some(place)
    };
    call.args
        .args
        .iter()
        .map(Box::as_ref)
        .enumerate()
        .filter_map(is_excused)
        .collect()
}

#[test]
fn row_7a_literal_argument() {
    is_smallest("7a", 11, |page| !excused(page).is_empty());
}

#[test]
fn row_7b_whole_literal_argument() {
    is_smallest("7b", 11, |page| {
        let is_whole = |record: &Record| matches!(record, Record::Number(number) if number.value().is_finite());
        !excused(page).is_empty() && page.records.first().is_some_and(is_whole)
    });
}

#[test]
fn row_7c_later_argument() {
    is_smallest("7c", 11, |page| {
        excused(page).iter().any(|place| *place > 0)
    });
}

fn is_accepted_at(page: &Worked, is_form: fn(&At) -> bool) -> bool {
    let is_form = |record: &Record| matches!(record, Record::At(at) if is_form(at));
    page.checked.is_some() && page.records.last().is_some_and(is_form)
}

#[test]
fn row_8_times() {
    is_smallest("8a", 5, |page| {
        is_accepted_at(page, |at| matches!(at, At::Before(_)))
    });
    is_smallest("8b", 5, |page| {
        is_accepted_at(page, |at| matches!(at, At::After(_)))
    });
}

#[test]
fn row_a17_function_of_no_table() {
    is_smallest(
        "A17",
        11,
        |page| matches!(tree(page), Some(Expr::Call(call)) if call.func.name == "f"),
    );
}

fn modifier<'w>(page: &'w Worked) -> Option<(u8, &'w Modifier<'w>)> {
    match page.records.last() {
        Some(Record::Binary { code, modifier }) if page.checked.is_some() => {
            modifier.as_ref().map(|modifier| (*code, modifier))
        }
        _ => None,
    }
}

#[test]
fn row_e4_many_to_many_on_arithmetic() {
    is_smallest("E4", 9, |page| {
        modifier(page).is_some_and(|(code, modifier)| {
            !is_set_operator(code) && modifier.cardinality == Cardinality::ManyToMany
        })
    });
}

#[test]
fn row_e5_empty_modifier() {
    is_smallest("E5", 9, |page| {
        modifier(page).is_some_and(|(_, modifier)| *modifier == Modifier::EMPTY)
    });
    let without = hex::bytes("00020002090100");
    let text = |page: &[u8]| tree(&worked(page)).map(Expr::to_string);
    assert_eq!(text(&without), text(&row("E5").page));
}
