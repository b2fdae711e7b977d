//! The copy of an accepted page: its records in order, with the state of the checked tree.
//! A set operator has the cardinality that the check gave it; a negated number stands in place of number and unary; @
//! stands before offset wherever the tree has both on one expression (document 02, No. 14).

use crate::page::record::*;
use promql_parser::parser::{Expr, Offset, VectorMatchCardinality};

/// Takes over one record, after the Rust built `result` from it.
pub fn take_over<'a>(copied: &mut Vec<Record<'a>>, record: &Record<'a>, result: &Expr) {
    match (record, result) {
        (Record::Unary, Expr::NumberLiteral(literal)) => {
            copied.pop();
            copied.push(Record::Number(Number::of_value(literal.val)));
        }
        (Record::Binary { code, modifier }, Expr::Binary(checked)) => {
            let card = checked.modifier.as_ref().map(|modifier| &modifier.card);
            copied.push(Record::Binary {
                code: *code,
                modifier: checked_modifier(modifier, card),
            });
        }
        (Record::At(_), expression) if offset(expression).is_some() => {
            let offset = copied.pop().expect("the expression's records");
            assert!(matches!(offset, Record::Offset { .. }), "{offset:?}");
            copied.extend([record.clone(), offset]);
        }
        _ => copied.push(record.clone()),
    }
}

/// The offset that an expression has itself: a selector, one with a range, or a subquery.
fn offset(expression: &Expr) -> Option<&Offset> {
    match expression {
        Expr::VectorSelector(selector) => selector.offset.as_ref(),
        Expr::MatrixSelector(range) => range.vs.offset.as_ref(),
        Expr::Subquery(subquery) => subquery.offset.as_ref(),
        _ => None,
    }
}

fn checked_modifier<'a>(
    modifier: &Option<Modifier<'a>>,
    card: Option<&VectorMatchCardinality>,
) -> Option<Modifier<'a>> {
    let card = card?;
    let mut modifier = modifier.clone().unwrap_or(Modifier::EMPTY);
    if *card == VectorMatchCardinality::ManyToMany {
        modifier.cardinality = Cardinality::ManyToMany;
    }
    Some(modifier)
}
