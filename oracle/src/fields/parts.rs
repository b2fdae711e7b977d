//! The parts of a node: literals, times, matchers, labels, modifiers.

use crate::page::record::{Matcher, Modifier, Number};
use promql_parser::label::{self, Labels, MatchOp};
use promql_parser::parser::{
    AtModifier, BinModifier, LabelModifier, Offset, VectorMatchCardinality, VectorMatchFillValues,
};
use std::time::{Duration, SystemTime};

/// The Rust's float, bit by bit, and the digits and places that the page has of a fraction.
pub(super) fn literal(value: f64, on_page: Number) -> String {
    if value.is_nan() {
        return "NaN".into();
    }
    let bits = value.to_bits();
    match on_page.fraction() {
        Some((fraction, _)) => {
            let (digits, places) = (fraction.digits(), fraction.places());
            format!("{bits:016x} digits {digits} places {places}")
        }
        None => format!("{bits:016x}"),
    }
}

pub(super) fn milliseconds(duration: &Duration) -> u128 {
    assert_eq!(duration.subsec_nanos() % 1_000_000, 0);
    duration.as_millis()
}

pub(super) fn times(at: &Option<AtModifier>, offset: &Option<Offset>) -> String {
    let at = match at {
        None => "absent".into(),
        Some(AtModifier::Start) => "start".into(),
        Some(AtModifier::End) => "end".into(),
        Some(AtModifier::At(time)) => match time.duration_since(SystemTime::UNIX_EPOCH) {
            Ok(after) => format!("+{}", milliseconds(&after)),
            Err(before) => format!("-{}", milliseconds(&before.duration())),
        },
    };
    let offset = match offset {
        None => "absent".into(),
        Some(Offset::Pos(offset)) => format!("+{}", milliseconds(offset)),
        Some(Offset::Neg(offset)) => format!("-{}", milliseconds(offset)),
    };
    format!("at {at} offset {offset}")
}

pub(super) fn matched(matcher: &label::Matcher, on_page: &Matcher) -> String {
    let label::Matcher { op, name, value } = matcher;
    let operation = match op {
        MatchOp::Equal => "=",
        MatchOp::NotEqual => "!=",
        MatchOp::Re(_) => "=~",
        MatchOp::NotRe(_) => "!~",
    };
    let flag = on_page.operation.flag();
    format!("{name:?} {operation} {value:?} flag {flag:?}")
}

fn labels(labels: &Labels) -> String {
    let Labels { labels } = labels;
    format!("{labels:?}")
}

/// Labels that are named, labels that are left out, or no list.
pub(super) fn listed(modifier: &Option<LabelModifier>) -> String {
    match modifier {
        None => "labels absent".into(),
        Some(LabelModifier::Include(list)) => format!("labels {}", labels(list)),
        Some(LabelModifier::Exclude(list)) => format!("labels but {}", labels(list)),
    }
}

pub(super) fn modified(modifier: &BinModifier, on_page: Option<&Modifier>) -> String {
    let BinModifier {
        card,
        matching,
        return_bool,
        fill_values: VectorMatchFillValues { lhs, rhs },
    } = modifier;
    let cardinality = match card {
        VectorMatchCardinality::OneToOne => "one-to-one".into(),
        VectorMatchCardinality::ManyToOne(list) => format!("many-to-one {}", labels(list)),
        VectorMatchCardinality::OneToMany(list) => format!("one-to-many {}", labels(list)),
        VectorMatchCardinality::ManyToMany => "many-to-many".into(),
    };
    let matching = listed(matching);
    let left = filled(*lhs, on_page.and_then(|modifier| modifier.left_fill));
    let right = filled(*rhs, on_page.and_then(|modifier| modifier.right_fill));
    format!("bool {return_bool} {matching} {cardinality} left {left} right {right}")
}

fn filled(value: Option<f64>, on_page: Option<Number>) -> String {
    match (value, on_page) {
        (None, None) => "absent".into(),
        (Some(value), Some(number)) => literal(value, number),
        _ => panic!("a fill of the tree or of the page is missing"),
    }
}
