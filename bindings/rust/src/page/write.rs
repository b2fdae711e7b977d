//! Writing of records: every number in its shortest form, the fields in the page's order.

use super::field::{put_number, put_text};
use super::*;

fn put_list<T>(bytes: &mut Vec<u8>, elements: &[T], put: impl Fn(&mut Vec<u8>, &T)) {
    put_number(bytes, elements.len() as u64);
    for element in elements {
        put(bytes, element);
    }
}

/// The number of a choice, and its labels.
fn put_labelled(bytes: &mut Vec<u8>, choice: u64, labels: &[String]) {
    put_number(bytes, choice);
    put_list(bytes, labels, |bytes, label| put_text(bytes, label));
}

/// The number of a choice, and the number that belongs to it.
fn put_pair(bytes: &mut Vec<u8>, choice: u64, number: u64) {
    put_number(bytes, choice);
    put_number(bytes, number);
}

/// 0, or 1 and the value.
fn put_option<T>(bytes: &mut Vec<u8>, value: Option<T>, put: impl Fn(&mut Vec<u8>, T)) {
    put_number(bytes, value.is_some().into());
    if let Some(value) = value {
        put(bytes, value);
    }
}

fn put_literal(bytes: &mut Vec<u8>, literal: Literal) {
    match literal {
        Literal::Whole(magnitude) => put_pair(bytes, 0, magnitude),
        Literal::Negative(magnitude) => put_pair(bytes, 1, magnitude),
        Literal::Nan => put_number(bytes, 2),
        Literal::Inf => put_number(bytes, 3),
        Literal::NegInf => put_number(bytes, 4),
        Literal::Fraction {
            minus,
            digits,
            places,
        } => {
            put_pair(bytes, if minus { 6 } else { 5 }, digits);
            put_number(bytes, places);
        }
    }
}

fn put_matcher(bytes: &mut Vec<u8>, matcher: &Matcher) {
    let (number, flag) = match matcher.op {
        MatchOp::Equal => (0, None),
        MatchOp::NotEqual => (1, None),
        MatchOp::Re { matches_empty } => (2, Some(matches_empty)),
        MatchOp::NotRe { matches_empty } => (3, Some(matches_empty)),
    };
    put_number(bytes, number);
    put_text(bytes, &matcher.name);
    put_text(bytes, &matcher.value);
    if let Some(flag) = flag {
        put_number(bytes, flag.into());
    }
}

fn put_at(bytes: &mut Vec<u8>, at: AtModifier) {
    match at {
        AtModifier::Start => put_number(bytes, 0),
        AtModifier::End => put_number(bytes, 1),
        AtModifier::After(milliseconds) => put_pair(bytes, 2, milliseconds),
        AtModifier::Before(milliseconds) => put_pair(bytes, 3, milliseconds),
    }
}

fn put_offset(bytes: &mut Vec<u8>, offset: Offset) {
    match offset {
        Offset::Plus(milliseconds) => put_pair(bytes, 0, milliseconds),
        Offset::Minus(milliseconds) => put_pair(bytes, 1, milliseconds),
    }
}

fn put_label_modifier(bytes: &mut Vec<u8>, modifier: &LabelModifier) {
    match modifier {
        LabelModifier::None => put_number(bytes, 0),
        LabelModifier::Include(labels) => put_labelled(bytes, 1, labels),
        LabelModifier::Exclude(labels) => put_labelled(bytes, 2, labels),
    }
}

fn put_bin_modifier(bytes: &mut Vec<u8>, modifier: &BinModifier) {
    put_number(bytes, modifier.returns_bool.into());
    put_label_modifier(bytes, &modifier.matching);
    match &modifier.cardinality {
        Cardinality::OneToOne => put_number(bytes, 0),
        Cardinality::ManyToOne(labels) => put_labelled(bytes, 1, labels),
        Cardinality::OneToMany(labels) => put_labelled(bytes, 2, labels),
        Cardinality::ManyToMany => put_number(bytes, 3),
    }
    put_option(bytes, modifier.left_fill, put_literal);
    put_option(bytes, modifier.right_fill, put_literal);
}

fn put_signature(bytes: &mut Vec<u8>, signature: &Signature) {
    put_list(bytes, &signature.kinds, |bytes, kind| {
        put_number(bytes, kind.number());
    });
    match signature.variadic {
        Variadic::Fixed => put_number(bytes, 0),
        Variadic::Unlimited => put_number(bytes, 1),
        Variadic::UpTo(upper) => put_pair(bytes, 2, upper),
    }
    put_number(bytes, signature.result.number());
}

/// The first number of a record.
fn number_of(record: &Record) -> u64 {
    match record {
        Record::Number(_) => 0,
        Record::String(_) => 1,
        Record::Selector { .. } => 2,
        Record::Range(_) => 3,
        Record::Subquery { .. } => 4,
        Record::At(_) => 5,
        Record::Offset(_) => 6,
        Record::Unary => 7,
        Record::Paren => 8,
        Record::Binary { .. } => 9,
        Record::Aggregate { .. } => 10,
        Record::Call { .. } => 11,
    }
}

pub fn record(bytes: &mut Vec<u8>, record: &Record) {
    put_number(bytes, number_of(record));
    match record {
        Record::Number(literal) => put_literal(bytes, *literal),
        Record::String(text) => put_text(bytes, text),
        Record::Selector { name, matchers } => {
            put_text(bytes, name);
            put_list(bytes, matchers, put_matcher);
        }
        Record::Range(range) => put_number(bytes, *range),
        Record::Subquery { range, step } => {
            put_number(bytes, *range);
            put_option(bytes, *step, put_number);
        }
        Record::At(at) => put_at(bytes, *at),
        Record::Offset(offset) => put_offset(bytes, *offset),
        Record::Unary | Record::Paren => {}
        Record::Binary { code, modifier } => {
            put_number(bytes, code.number());
            put_option(bytes, modifier.as_ref(), put_bin_modifier);
        }
        Record::Aggregate {
            code,
            grouping,
            arguments,
        } => {
            put_number(bytes, code.number());
            put_label_modifier(bytes, grouping);
            put_number(bytes, *arguments as u64);
        }
        Record::Call {
            function,
            arguments,
        } => {
            put_text(bytes, &function.name);
            put_signature(bytes, &function.signature);
            put_number(bytes, *arguments as u64);
        }
    }
}
