//! Stub: the visitor is not among the published files.

pub fn walk_expr() {}

pub trait ExprVisitor {}
