//! Whole texts of 100 and 101 bytes in which a fraction's length counts, and fractions alone on a line.

use super::super::Coverage;
use crate::answer::Answer;
use promql_parser::parser::Expr;

const AROUND: [&str; 3] = ["side of a binary", "fill", "parameter"];

const ALONE: &str = "fractions: alone on a line";

pub(super) fn classes() -> Vec<String> {
    let widths = AROUND
        .into_iter()
        .flat_map(|around| [100, 101].map(|bytes| wide(around, bytes)));
    widths.chain([ALONE.to_string()]).collect()
}

fn wide(around: &str, bytes: usize) -> String {
    let outcome = ["stay", "split"][bytes - 100];
    format!("fractions: {bytes} bytes {outcome}, {around}")
}

fn is_fraction(value: f64) -> bool {
    value.is_finite() && value.fract() != 0.0
}

fn is_number(expr: &Expr) -> bool {
    matches!(expr, Expr::NumberLiteral(literal) if is_fraction(literal.val))
}

/// Where the outermost node has a fraction: beside it, as a fill, as a parameter.
fn around(tree: &Expr) -> [bool; 3] {
    match tree {
        Expr::Binary(binary) => {
            let fills = binary
                .modifier
                .as_ref()
                .map(|modifier| &modifier.fill_values);
            let fills = fills.map_or([None; 2], |fills| [fills.lhs, fills.rhs]);
            let has_fill = fills.into_iter().flatten().any(is_fraction);
            [
                is_number(&binary.lhs) || is_number(&binary.rhs),
                has_fill,
                false,
            ]
        }
        Expr::Aggregate(aggregate) => {
            let parameter = aggregate.param.as_ref();
            [
                false,
                false,
                parameter.is_some_and(|parameter| is_number(parameter)),
            ]
        }
        _ => [false; 3],
    }
}

impl Coverage {
    pub(super) fn fraction_widths(&mut self, tree: &Expr, answer: &Answer) {
        let bytes = answer.canonical.len();
        let is_split = answer.split.contains(&b'\n');
        if bytes == 100 && !is_split || bytes == 101 && is_split {
            for (words, has_fraction) in AROUND.into_iter().zip(around(tree)) {
                self.hit_if(has_fraction, &wide(words, bytes));
            }
        }
        let text = String::from_utf8_lossy(&answer.split);
        let is_alone = |line: &str| {
            let value = line.trim_start().trim_end_matches(',').parse();
            value.is_ok_and(is_fraction)
        };
        self.hit_if(is_split && text.lines().any(is_alone), ALONE);
    }
}
