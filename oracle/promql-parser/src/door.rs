//! What the reference of document 01, 'Checking', names: the constructors and `check_ast`, as they stand in ast.rs; and
//! the lookup in the function table of document 02, No. 2, as it stands in function.rs.

use crate::label::Matchers;
use crate::parser::ast::{self, AtModifier, BinModifier, LabelModifier, Offset};
use crate::parser::token::TokenId;
use crate::parser::{function, Expr, Function, FunctionArgs};
use std::time::Duration;

type Checked = Result<Expr, String>;

pub fn new_vector_selector(name: Option<String>, matchers: Matchers) -> Checked {
    Expr::new_vector_selector(name, matchers)
}

pub fn new_matrix_selector(expr: Expr, range: Duration) -> Checked {
    Expr::new_matrix_selector(expr, range)
}

pub fn new_subquery_expr(expr: Expr, range: Duration, step: Option<Duration>) -> Checked {
    Expr::new_subquery_expr(expr, range, step)
}

pub fn at_expr(expr: Expr, at: AtModifier) -> Checked {
    expr.at_expr(at)
}

pub fn offset_expr(expr: Expr, offset: Offset) -> Checked {
    expr.offset_expr(offset)
}

pub fn new_unary_expr(expr: Expr) -> Checked {
    Expr::new_unary_expr(expr)
}

pub fn new_paren_expr(expr: Expr) -> Checked {
    Expr::new_paren_expr(expr)
}

pub fn new_binary_expr(
    left: Expr,
    operator: TokenId,
    modifier: Option<BinModifier>,
    right: Expr,
) -> Checked {
    Expr::new_binary_expr(left, operator, modifier, right)
}

pub fn new_aggregate_expr(
    operator: TokenId,
    modifier: Option<LabelModifier>,
    arguments: FunctionArgs,
) -> Checked {
    Expr::new_aggregate_expr(operator, modifier, arguments)
}

pub fn new_call(function: Function, arguments: FunctionArgs) -> Checked {
    Expr::new_call(function, arguments)
}

pub fn check_ast(expr: Expr) -> Checked {
    ast::check_ast(expr)
}

pub fn get_function(name: &str) -> Option<Function> {
    function::get_function(name)
}
