//! The classes that a run must reach.

use super::{characters, fractions, functions, generations, ill_formed, operators, patterns};
use super::{times, words};
use crate::refusal;

/// The record kinds, by their number on the page.
pub const RECORDS: [&str; 12] = [
    "number",
    "string",
    "selector",
    "range",
    "subquery",
    "@",
    "offset",
    "unary",
    "paren",
    "binary",
    "aggregate",
    "call",
];

/// The forms of a number, by their number on the page.
const FORMS: [&str; 7] = [
    "Whole",
    "NegativeWhole",
    "NaN",
    "Inf",
    "NegativeInf",
    "Fraction",
    "NegativeFraction",
];

#[rustfmt::skip]
const PARTS: &[&str] = &[
    "matcher =", "matcher !=", "matcher =~ flag 0", "matcher =~ flag 1", "matcher !~ flag 0", "matcher !~ flag 1",
    "selector with name", "selector without name", "selector with matchers", "selector without matchers",
    "step absent", "step present", "@ start", "@ end", "@ after", "@ before", "offset plus", "offset minus",
    "modifier absent", "modifier present", "bool 0", "bool 1", "matching none", "matching on", "matching on ()",
    "matching ignoring", "matching ignoring ()", "cardinality one-to-one", "cardinality group_left",
    "cardinality group_left ()", "cardinality group_right", "cardinality group_right ()", "cardinality many-to-many",
    "fills none", "fills left", "fills right", "fills both", "grouping none", "grouping by", "grouping by ()",
    "grouping without", "grouping without ()", "extra fixed", "extra unlimited", "extra upper", "no declared kinds",
];

#[rustfmt::skip]
const TEXTS: &[&str] = &[
    "text: matchers put in another order", "text: equal matchers kept", "text: matcher name quoted",
    "text: label quoted", "text: empty label", "text: label bare", "text: escaped backslash", "text: escaped quote",
    "text: escaped line feed", "text: escaped carriage return", "text: escaped tab", "text: raw control byte",
    "text: on () printed", "text: ignoring () vanishes", "text: by () vanishes", "text: without () printed",
    "text: group_left () printed", "text: group_right () printed", "text: many-to-many prints nothing", "text: fill",
    "text: fill_left", "text: fill_right", "text: fill_left and fill_right", "text: fill of inf",
    "text: fill of -inf", "text: fill of NaN", "text: fill of -0", "text: fills NaN and NaN", "text: fills 0 and -0",
    "text: @ with decimals", "text: negative @ is 0.000", "text: @ printed before an earlier offset",
    "text: duration in y", "text: duration in w", "text: duration in d", "text: duration in h", "text: duration in m",
    "text: duration in s", "text: duration in ms", "text: duration 0s", "text: a year in days", "text: weeks in days",
    "text: offset -0s", "copy: negated number", "copy: number negated twice", "copy: set operator without modifier",
    "copy: set operator one-to-one", "copy: set operator many-to-many", "exception: exp", "exception: ln",
    "exception: log2", "exception: log10",
];

#[rustfmt::skip]
const SPLITS: &[&str] = &[
    "split: binary", "split: aggregate", "split: aggregate with parameter", "split: call", "split: call of several",
    "split: paren", "split: unary over a split operand", "split: subquery over a split operand",
    "split: long unary with a short operand", "split: long subquery with a short operand", "split: long leaf stays",
    "split: 100 bytes stay", "split: 101 bytes split", "split: 100 bytes of fewer characters stay",
    "split: 101 bytes of at most 100 characters split", "split: three levels",
];

pub fn all() -> Vec<String> {
    let mut classes: Vec<String> = Vec::new();
    classes.extend(refusal::of_calls().map(|number| format!("refusal {number:02}")));
    classes.extend(RECORDS.iter().map(|record| format!("record {record}")));
    for kind in ["Vector", "Scalar", "Matrix", "String"] {
        classes.push(format!("kind {kind}"));
        classes.push(format!("declared kind {kind}"));
        classes.push(format!("result kind {kind}"));
    }
    for form in FORMS {
        classes.push(format!("number {form}"));
        classes.push(format!("fill {form}"));
    }
    for code in 1..=30 {
        classes.push(format!("binary code {code:02}"));
        classes.push(format!("aggregate code {code:02}"));
    }
    let named = [PARTS, TEXTS, SPLITS].concat();
    classes.extend(named.into_iter().map(String::from));
    classes.extend(words::classes());
    classes.extend(characters::classes());
    classes.extend(ill_formed::classes());
    classes.extend(fractions::classes());
    classes.extend(patterns::classes());
    classes.extend(times::classes());
    classes.extend(functions::classes());
    classes.extend(operators::classes());
    classes.extend(generations::classes());
    classes
}
