//! The parts of records as the Rust holds them.

use crate::page::record::*;
use promql_parser::label;
use promql_parser::parser::token::*;
use promql_parser::parser::value::ValueType;
use promql_parser::parser::{
    AtModifier, BinModifier, Function, LabelModifier, Offset, VectorMatchCardinality,
    VectorMatchFillValues,
};
use std::collections::HashSet;
use std::sync::Mutex;
use std::time::{Duration, SystemTime};

/// The tokens of codes 1 to 30.
const TOKENS: [TokenId; 30] = [
    T_ADD,
    T_DIV,
    T_EQLC,
    T_GTE,
    T_GTR,
    T_LAND,
    T_LOR,
    T_LSS,
    T_LTE,
    T_LUNLESS,
    T_MOD,
    T_MUL,
    T_NEQ,
    T_POW,
    T_SUB,
    T_ATAN2,
    T_AVG,
    T_BOTTOMK,
    T_COUNT,
    T_COUNT_VALUES,
    T_GROUP,
    T_MAX,
    T_MIN,
    T_QUANTILE,
    T_STDDEV,
    T_STDVAR,
    T_SUM,
    T_TOPK,
    T_LIMITK,
    T_LIMIT_RATIO,
];

pub fn token(code: u8) -> TokenId {
    TOKENS[usize::from(code) - 1]
}

pub fn at_modifier(at: At) -> AtModifier {
    let epoch = SystemTime::UNIX_EPOCH;
    match at {
        At::Start => AtModifier::Start,
        At::End => AtModifier::End,
        At::After(milliseconds) => AtModifier::At(epoch + Duration::from_millis(milliseconds)),
        At::Before(milliseconds) => AtModifier::At(epoch - Duration::from_millis(milliseconds)),
    }
}

pub fn offset(is_minus: bool, milliseconds: u64) -> Offset {
    let duration = Duration::from_millis(milliseconds);
    if is_minus {
        Offset::Neg(duration)
    } else {
        Offset::Pos(duration)
    }
}

fn labels(labels: &[Text]) -> label::Labels {
    label::Labels::new(labels.iter().map(|label| label.text.as_ref()).collect())
}

pub fn bin_modifier(modifier: &Modifier) -> BinModifier {
    let matching = match &modifier.matching {
        Matching::None => None,
        Matching::On(list) => Some(LabelModifier::Include(labels(list))),
        Matching::Ignoring(list) => Some(LabelModifier::Exclude(labels(list))),
    };
    let cardinality = match &modifier.cardinality {
        Cardinality::OneToOne => VectorMatchCardinality::OneToOne,
        Cardinality::GroupLeft(list) => VectorMatchCardinality::ManyToOne(labels(list)),
        Cardinality::GroupRight(list) => VectorMatchCardinality::OneToMany(labels(list)),
        Cardinality::ManyToMany => VectorMatchCardinality::ManyToMany,
    };
    BinModifier::default()
        .with_card(cardinality)
        .with_matching(matching)
        .with_return_bool(modifier.is_bool)
        .with_fill_values(VectorMatchFillValues {
            lhs: modifier.left_fill.map(Number::value),
            rhs: modifier.right_fill.map(Number::value),
        })
}

pub fn grouping(grouping: &Grouping) -> Option<LabelModifier> {
    match grouping {
        Grouping::None => None,
        Grouping::By(list) => Some(LabelModifier::Include(labels(list))),
        Grouping::Without(list) => Some(LabelModifier::Exclude(labels(list))),
    }
}

fn value_type(kind: Kind) -> ValueType {
    match kind {
        Kind::Vector => ValueType::Vector,
        Kind::Scalar => ValueType::Scalar,
        Kind::Matrix => ValueType::Matrix,
        Kind::String => ValueType::String,
    }
}

pub fn function(signature: &Signature) -> Function {
    let variadic = match signature.extra {
        Extra::Fixed => 0,
        Extra::Unlimited => -1,
        Extra::Upper(upper) => upper as i32,
    };
    Function::new(
        lasting(&signature.name.text),
        signature.kinds.iter().copied().map(value_type).collect(),
        variadic,
        value_type(signature.result),
        false,
    )
}

/// `Function::name` lives for ever in the Rust; each name is leaked once.
fn lasting(name: &str) -> &'static str {
    static NAMES: Mutex<Option<HashSet<&'static str>>> = Mutex::new(None);
    let mut guard = NAMES
        .lock()
        .expect("no thread stops while it holds the names");
    let names = guard.get_or_insert_with(HashSet::new);
    if let Some(known) = names.get(name) {
        return known;
    }
    let leaked: &'static str = Box::leak(name.to_string().into_boxed_str());
    names.insert(leaked);
    leaked
}
