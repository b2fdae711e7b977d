//! A record with its parts as the Rust's constructors take them, and the constructor on operands.

use super::{parts, pattern};
use crate::page::record::*;
use promql_parser::door;
use promql_parser::label::{self, Matchers};
use promql_parser::parser::token::TokenId;
use promql_parser::parser::{
    AtModifier, BinModifier, Expr, Function, FunctionArgs, LabelModifier, Offset,
};
use std::time::Duration;

pub enum Ready {
    Number(f64),
    String(String),
    Selector(Option<String>, Matchers),
    Range(Duration),
    Subquery(Duration, Option<Duration>),
    At(AtModifier),
    Offset(Offset),
    Unary,
    Paren,
    Binary(TokenId, Option<BinModifier>),
    Aggregate(TokenId, Option<LabelModifier>, usize),
    Call(Function, usize),
}

impl From<&Record<'_>> for Ready {
    fn from(record: &Record) -> Self {
        match record {
            Record::Number(number) => Ready::Number(number.value()),
            Record::String(text) => Ready::String(text.text.to_string()),
            Record::Selector { name, matchers } => selector(name, matchers, pattern::matcher),
            Record::Range(range) => Ready::Range(Duration::from_millis(*range)),
            Record::Subquery { range, step } => Ready::Subquery(
                Duration::from_millis(*range),
                step.map(Duration::from_millis),
            ),
            Record::At(at) => Ready::At(parts::at_modifier(*at)),
            Record::Offset {
                is_minus,
                milliseconds,
            } => Ready::Offset(parts::offset(*is_minus, *milliseconds)),
            Record::Unary => Ready::Unary,
            Record::Paren => Ready::Paren,
            Record::Binary { code, modifier } => Ready::Binary(
                parts::token(*code),
                modifier.as_ref().map(parts::bin_modifier),
            ),
            Record::Aggregate {
                code,
                grouping,
                arguments,
            } => Ready::Aggregate(parts::token(*code), parts::grouping(grouping), *arguments),
            Record::Call {
                signature,
                arguments,
            } => Ready::Call(parts::function(signature), *arguments),
        }
    }
}

impl Ready {
    /// The parts as the Rust itself makes them, patterns compiled anew.
    pub fn compiled(record: &Record) -> Self {
        match record {
            Record::Selector { name, matchers } => {
                selector(name, matchers, pattern::compiled_matcher)
            }
            other => Ready::from(other),
        }
    }

    /// The parts of a call with the function that the Rust's own table has under the name, which must be the carried
    /// one but for its mark `experimental`.
    pub fn looked_up(record: &Record) -> Self {
        match Ready::from(record) {
            Ready::Call(carried, arguments) => {
                let known = door::get_function(carried.name).expect("a function of the table");
                let experimental = known.experimental;
                assert!(
                    known
                        == Function {
                            experimental,
                            ..carried
                        },
                    "a like signature"
                );
                Ready::Call(known, arguments)
            }
            other => other,
        }
    }

    /// The constructor, on operands taken from the end of the stack; they were counted.
    pub fn construct(self, stack: &mut Vec<Expr>) -> Result<Expr, String> {
        match self {
            Ready::Number(value) => Ok(Expr::from(value)),
            Ready::String(text) => Ok(Expr::from(text)),
            Ready::Selector(name, matchers) => door::new_vector_selector(name, matchers),
            Ready::Range(range) => door::new_matrix_selector(last(stack), range),
            Ready::Subquery(range, step) => door::new_subquery_expr(last(stack), range, step),
            Ready::At(at) => door::at_expr(last(stack), at),
            Ready::Offset(offset) => door::offset_expr(last(stack), offset),
            Ready::Unary => door::new_unary_expr(last(stack)),
            Ready::Paren => door::new_paren_expr(last(stack)),
            Ready::Binary(operator, modifier) => {
                let right = last(stack);
                door::new_binary_expr(last(stack), operator, modifier, right)
            }
            Ready::Aggregate(operator, modifier, count) => {
                door::new_aggregate_expr(operator, modifier, arguments(stack, count))
            }
            Ready::Call(function, count) => door::new_call(function, arguments(stack, count)),
        }
    }

    /// The constructor, then `check_ast`; a panic of the Rust goes through.
    pub fn build(self, stack: &mut Vec<Expr>) -> Result<Expr, String> {
        self.construct(stack).and_then(door::check_ast)
    }
}

fn selector(name: &Text, matchers: &[Matcher], make: fn(&Matcher) -> label::Matcher) -> Ready {
    let name = (!name.text.is_empty()).then(|| name.text.to_string());
    Ready::Selector(name, Matchers::new(matchers.iter().map(make).collect()))
}

fn last(stack: &mut Vec<Expr>) -> Expr {
    stack.pop().expect("operands were counted")
}

fn arguments(stack: &mut Vec<Expr>, count: usize) -> FunctionArgs {
    stack
        .drain(stack.len() - count..)
        .fold(FunctionArgs::empty_args(), FunctionArgs::append_args)
}
