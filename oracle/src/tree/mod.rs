//! One record driven through the Rust: its constructor, then `check_ast`, as document 01, 'Checking', says.

mod guard;
mod joint;
mod parts;
mod pattern;
mod ready;

pub use guard::Stop;
pub use joint::joint_labels;
pub use pattern::{has_wrong_flag, matcher, matches_empty, pattern, Pattern};
pub use ready::Ready;

use crate::page::record::*;
use crate::refusal::Stage;
use guard::guarded;
use promql_parser::door;
use promql_parser::parser::token::TokenType;
use promql_parser::parser::value::ValueType;
use promql_parser::parser::Expr;

/// The record on its operands, the deepest first; or what the Rust says against it.
pub fn apply(record: &Record, mut operands: Vec<Expr>) -> Result<Expr, Stop> {
    let kind = record.kind_number();
    let built = guarded(Stage::Constructor, kind, || {
        Ready::from(record).construct(&mut operands)
    })?;
    let checked = guarded(Stage::Check, kind, || door::check_ast(built));
    if let Err(Stop::Refused {
        number: 19,
        message,
    }) = &checked
    {
        if !joint::names_common_label(record, message) {
            return Err(Stop::Unforeseen(message.clone()));
        }
    }
    checked
}

/// The word of a code, by the Rust's tokens.
pub fn word(code: u8) -> String {
    TokenType::new(parts::token(code)).to_string()
}

/// The kind of an expression, by the Rust's `value_type`.
pub fn kind(expr: &Expr) -> Kind {
    kind_of(expr.value_type())
}

/// The kind that a type of the Rust is.
pub fn kind_of(value_type: ValueType) -> Kind {
    match value_type {
        ValueType::Vector => Kind::Vector,
        ValueType::Scalar => Kind::Scalar,
        ValueType::Matrix => Kind::Matrix,
        ValueType::String => Kind::String,
    }
}
