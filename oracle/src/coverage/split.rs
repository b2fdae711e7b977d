//! The rules of split text, seen from the checked tree: which nodes the Rust asks, and which are longer than 100 bytes.

use super::Coverage;
use promql_parser::parser::Expr;

const MAX: usize = 100;

impl Coverage {
    /// Follows `prettify`: a node that splits asks its operands one level down, unary and subquery on the same level.
    pub(super) fn split(&mut self, tree: &Expr, level: usize) {
        let text = tree.to_string();
        let (size, characters) = (text.len(), text.chars().count());
        match tree {
            Expr::Unary(unary) => {
                let class = "split: long unary with a short operand";
                self.passed_on(
                    size,
                    &unary.expr,
                    "split: unary over a split operand",
                    class,
                );
                self.split(&unary.expr, level);
            }
            Expr::Subquery(subquery) => {
                let class = "split: long subquery with a short operand";
                self.passed_on(
                    size,
                    &subquery.expr,
                    "split: subquery over a split operand",
                    class,
                );
                self.split(&subquery.expr, level);
            }
            _ if is_leaf(tree) => self.hit_if(size > MAX, "split: long leaf stays"),
            _ if size > MAX => {
                self.hit_if(size == MAX + 1, "split: 101 bytes split");
                let is_short = size == MAX + 1 && characters <= MAX;
                self.hit_if(is_short, "split: 101 bytes of at most 100 characters split");
                self.hit_if(level == 2, "split: three levels");
                self.split_node(tree, level + 1);
            }
            _ => {
                self.hit_if(size == MAX, "split: 100 bytes stay");
                let is_shorter = size == MAX && characters < MAX;
                self.hit_if(is_shorter, "split: 100 bytes of fewer characters stay");
            }
        }
    }

    fn passed_on(&mut self, size: usize, operand: &Expr, over_split: &str, over_short: &str) {
        let splits = !is_leaf(operand) && operand.to_string().len() > MAX;
        self.hit_if(splits, over_split);
        self.hit_if(size > MAX && operand.to_string().len() <= MAX, over_short);
    }

    fn split_node(&mut self, tree: &Expr, level: usize) {
        match tree {
            Expr::Binary(binary) => {
                self.hit("split: binary");
                self.split(&binary.lhs, level);
                self.split(&binary.rhs, level);
            }
            Expr::Paren(paren) => {
                self.hit("split: paren");
                self.split(&paren.expr, level);
            }
            Expr::Aggregate(aggregate) => {
                match &aggregate.param {
                    None => self.hit("split: aggregate"),
                    Some(parameter) => {
                        self.hit("split: aggregate with parameter");
                        self.split(parameter, level);
                    }
                }
                self.split(&aggregate.expr, level);
            }
            Expr::Call(call) => {
                self.hit("split: call");
                self.hit_if(call.args.len() > 1, "split: call of several");
                for argument in &call.args.args {
                    self.split(argument, level);
                }
            }
            _ => {}
        }
    }
}

fn is_leaf(tree: &Expr) -> bool {
    matches!(
        tree,
        Expr::NumberLiteral(_)
            | Expr::StringLiteral(_)
            | Expr::VectorSelector(_)
            | Expr::MatrixSelector(_)
    )
}
