//! Every field of a checked tree, written out: two accepted pages are one query when, and only when, these texts are
//! equal (document 02, No. 14). The tree is the Rust's own; the page adds what it has not, the flags of patterns and
//! the digits and places of fractions. NaN is like NaN, whatever its sign; minus zero is not zero.

mod parts;

use crate::answer::Worked;
use crate::page::record::{Matcher, Modifier, Number, Record};
use parts::{listed, literal, matched, milliseconds, modified, times};
use promql_parser::label::Matchers;
use promql_parser::parser::{
    AggregateExpr, BinaryExpr, Call, Expr, Function, FunctionArgs, MatrixSelector, NumberLiteral,
    ParenExpr, StringLiteral, SubqueryExpr, UnaryExpr, VectorSelector,
};
use std::slice::Iter;

/// The fields of an accepted page's tree, operands first.
pub fn written(worked: &Worked) -> Option<String> {
    let (tree, _) = worked.checked.as_ref()?;
    let mut writer = Writer {
        text: String::new(),
        page: worked.records.iter(),
    };
    writer.expression(tree);
    Some(writer.text)
}

/// The records of the page are looked at in the order in which the tree has their nodes.
struct Writer<'w, 'a> {
    text: String,
    page: Iter<'w, Record<'a>>,
}

impl<'w, 'a> Writer<'w, 'a> {
    fn expression(&mut self, expression: &Expr) {
        match expression {
            Expr::NumberLiteral(NumberLiteral { val }) => {
                let literal = literal(*val, self.number());
                self.put(&format!("number {literal}"));
            }
            Expr::StringLiteral(StringLiteral { val }) => self.put(&format!("string {val:?}")),
            Expr::VectorSelector(selector) => self.selector(selector),
            Expr::MatrixSelector(MatrixSelector { vs, range }) => {
                self.selector(vs);
                self.put(&format!("range {}", milliseconds(range)));
            }
            Expr::Subquery(subquery) => self.subquery(subquery),
            Expr::Unary(UnaryExpr { expr }) => {
                self.expression(expr);
                self.put("unary");
            }
            Expr::Paren(ParenExpr { expr }) => {
                self.expression(expr);
                self.put("paren");
            }
            Expr::Binary(binary) => self.binary(binary),
            Expr::Aggregate(aggregate) => self.aggregate(aggregate),
            Expr::Call(call) => self.call(call),
            Expr::Extension(_) => unreachable!("no record makes one"),
        }
    }

    fn put(&mut self, node: &str) {
        self.text += node;
        self.text.push('\n');
    }

    /// The next number record of the page.
    fn number(&mut self) -> Number {
        let number = self.page.find_map(|record| match record {
            Record::Number(number) => Some(*number),
            _ => None,
        });
        number.expect("a number for each number of the tree")
    }

    /// The matchers of the page's next selector.
    fn matchers(&mut self) -> &'w [Matcher<'a>] {
        let matchers = self.page.find_map(|record| match record {
            Record::Selector { matchers, .. } => Some(matchers.as_slice()),
            _ => None,
        });
        matchers.expect("a selector for each selector of the tree")
    }

    /// The modifier of the page's next operator.
    fn modifier(&mut self) -> Option<&'w Modifier<'a>> {
        let modifier = self.page.find_map(|record| match record {
            Record::Binary { modifier, .. } => Some(modifier.as_ref()),
            _ => None,
        });
        modifier.expect("an operator for each operator of the tree")
    }

    fn selector(&mut self, selector: &VectorSelector) {
        let VectorSelector {
            name,
            matchers:
                Matchers {
                    matchers,
                    or_matchers,
                },
            offset,
            at,
        } = selector;
        assert!(or_matchers.is_empty(), "no record makes them");
        let on_page = self.matchers();
        assert_eq!(matchers.len(), on_page.len());
        let pairs = matchers.iter().zip(on_page);
        let matchers: Vec<String> = pairs
            .map(|(matcher, page)| matched(matcher, page))
            .collect();
        let (matchers, times) = (matchers.join(", "), times(at, offset));
        self.put(&format!("selector {name:?} [{matchers}] {times}"));
    }

    fn subquery(&mut self, subquery: &SubqueryExpr) {
        let SubqueryExpr {
            expr,
            offset,
            at,
            range,
            step,
        } = subquery;
        self.expression(expr);
        let step = step.as_ref().map(milliseconds);
        let (range, times) = (milliseconds(range), times(at, offset));
        self.put(&format!("subquery {range} step {step:?} {times}"));
    }

    fn binary(&mut self, binary: &BinaryExpr) {
        let BinaryExpr {
            op,
            lhs,
            rhs,
            modifier,
        } = binary;
        self.expression(lhs);
        self.expression(rhs);
        let on_page = self.modifier();
        let modifier = modifier
            .as_ref()
            .map(|modifier| modified(modifier, on_page));
        let modifier = modifier.unwrap_or("absent".into());
        self.put(&format!("binary {} modifier {modifier}", op.id()));
    }

    /// The parameter stands before the expression on a page.
    fn aggregate(&mut self, aggregate: &AggregateExpr) {
        let AggregateExpr {
            op,
            expr,
            param,
            modifier,
        } = aggregate;
        if let Some(parameter) = param {
            self.expression(parameter);
        }
        self.expression(expr);
        let has_parameter = param.is_some();
        let grouping = listed(modifier);
        self.put(&format!(
            "aggregate {} parameter {has_parameter} {grouping}",
            op.id()
        ));
    }

    fn call(&mut self, call: &Call) {
        let Call {
            func,
            args: FunctionArgs { args },
        } = call;
        let Function {
            name,
            arg_types,
            variadic,
            return_type,
            experimental,
        } = func;
        for argument in args {
            self.expression(argument);
        }
        self.put(&format!(
            "call {name:?} kinds {arg_types:?} variadic {variadic} result {return_type:?} \
             experimental {experimental} arguments {}",
            args.len()
        ));
    }
}
