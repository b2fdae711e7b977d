//! What takes a bare fraction, one with unary records at most: calls with the exception's names, aggregates, other
//! records, what is refused; and where a paren makes it a bare number no longer.

use super::super::Coverage;
use crate::answer::{Outcome, Worked};
use crate::generate::fractions::calls::{is_excused, MOST_UNARY, NAMES};
use crate::page::record::*;

/// The refusals of records that take a scalar.
const REFUSALS: [u8; 10] = [9, 11, 13, 18, 20, 22, 23, 25, 30, 32];

/// The aggregators that take a scalar: bottomk, quantile, topk, limitk, limit_ratio.
const PARAMETERS: [u8; 5] = [18, 24, 28, 29, 30];

#[rustfmt::skip]
const NAMED: &[&str] = &[
    "fractions: argument declared scalar", "fractions: side of a binary", "fractions: 29 skipped",
    "fractions: 29, form 5", "fractions: negated, in a paren and negated again",
];

pub(super) fn classes() -> Vec<String> {
    let mut classes: Vec<String> = NAMED.iter().map(ToString::to_string).collect();
    for form in [5, 6] {
        classes.extend((1..=MOST_UNARY).map(|unary| negated(form, unary)));
        classes.push(in_paren(form));
        for name in NAMES {
            for unary in 0..=MOST_UNARY {
                let is_minus = (form == 6) != (unary % 2 == 1);
                classes.push(called(name, form, unary, is_excused(name, is_minus)));
            }
            classes.push(called_in_paren(name, form));
        }
    }
    classes.extend(REFUSALS.map(refused));
    classes.extend(PARAMETERS.map(parameter));
    classes
}

fn negated(form: u8, unary: usize) -> String {
    format!("fractions: form {form} under unary, {unary} of them")
}

fn in_paren(form: u8) -> String {
    format!("fractions: form {form} in a paren under unary")
}

fn called(name: &str, form: u8, unary: usize, is_excused: bool) -> String {
    let outcome = ["refused", "excused"][usize::from(is_excused)];
    format!("fractions: {name} of form {form} and {unary} unary, {outcome}")
}

fn called_in_paren(name: &str, form: u8) -> String {
    format!("fractions: {name} of form {form} in a paren, refused")
}

fn refused(number: u8) -> String {
    format!("fractions: operand of {number:02}")
}

fn parameter(code: u8) -> String {
    format!("fractions: parameter of code {code}")
}

/// A bare fraction: the form of its record, and the unary records on it.
#[derive(Clone, Copy)]
struct Bare {
    form: u8,
    unary: usize,
}

/// What the stack holds of a page: a bare fraction, one in a paren, or something else.
#[derive(Clone, Copy)]
enum Value {
    Bare(Bare),
    InParen(Bare),
    Other,
}

impl Value {
    /// What a record that passed puts back.
    fn put_back(record: &Record, operands: &[Value]) -> Self {
        match (record, operands) {
            (Record::Number(Number::Fraction(_)), _) => Value::Bare(Bare { form: 5, unary: 0 }),
            (Record::Number(Number::NegativeFraction(_)), _) => {
                Value::Bare(Bare { form: 6, unary: 0 })
            }
            (Record::Unary, [Value::Bare(bare)]) => Value::Bare(Bare {
                unary: bare.unary + 1,
                ..*bare
            }),
            (Record::Paren, [Value::Bare(bare)]) => Value::InParen(*bare),
            _ => Value::Other,
        }
    }
}

impl Coverage {
    /// Goes over the records as the stack does; the last one may have been refused.
    pub(super) fn fraction_operands(&mut self, worked: &Worked) {
        let mut stack: Vec<Value> = Vec::new();
        for (index, record) in worked.records.iter().enumerate() {
            let Some(kept) = stack.len().checked_sub(record.operands()) else {
                return;
            };
            let operands = stack.split_off(kept);
            let refusal = match worked.outcome {
                Outcome::Refused { number, record } if record == index => Some(number),
                _ => None,
            };
            self.taken(record, &operands, refusal);
            stack.push(Value::put_back(record, &operands));
        }
    }

    fn taken(&mut self, record: &Record, operands: &[Value], refusal: Option<u8>) {
        if let Record::Call { signature, .. } = record {
            self.call(signature, operands, refusal);
        }
        let is_bare = |value: &Value| matches!(value, Value::Bare(_));
        let has_bare = operands.iter().any(is_bare);
        if let Some(number) = refusal {
            let is_hit = has_bare && REFUSALS.contains(&number);
            return self.hit_if(is_hit, &refused(number));
        }
        match (record, operands) {
            (Record::Unary, [Value::Bare(Bare { form, unary })]) if *unary < MOST_UNARY => {
                self.hit(negated(*form, unary + 1));
            }
            (Record::Unary, [Value::InParen(Bare { form, unary })]) => {
                self.hit(in_paren(*form));
                let class = "fractions: negated, in a paren and negated again";
                self.hit_if(*unary > 0, class);
            }
            (Record::Binary { .. }, _) => self.hit_if(has_bare, "fractions: side of a binary"),
            (Record::Aggregate { code, .. }, [Value::Bare(_), _]) => {
                self.hit_if(PARAMETERS.contains(code), &parameter(*code));
            }
            _ => {}
        }
    }

    fn call(&mut self, signature: &Signature, operands: &[Value], refusal: Option<u8>) {
        let name = signature.name.text.as_ref();
        let is_excused = match refusal {
            None => true,
            Some(29 | 30) => false,
            Some(_) => return,
        };
        match (signature.kinds.as_slice(), operands) {
            ([Kind::Scalar, ..], [Value::Bare(_), ..]) => {
                self.hit_if(is_excused, "fractions: argument declared scalar");
            }
            ([], [Value::Bare(bare), ..]) => self.undeclared(*bare, refusal),
            ([Kind::Vector], [Value::Bare(Bare { form, unary })])
                if NAMES.contains(&name) && *unary <= MOST_UNARY =>
            {
                self.hit(called(name, *form, *unary, is_excused));
            }
            ([Kind::Vector], [Value::InParen(bare)]) if NAMES.contains(&name) && !is_excused => {
                self.hit(called_in_paren(name, bare.form));
            }
            _ => {}
        }
    }

    /// A call without declared kinds, which is 29 unless it is excused.
    fn undeclared(&mut self, bare: Bare, refusal: Option<u8>) {
        match refusal {
            None => self.hit("fractions: 29 skipped"),
            Some(_) => self.hit_if(bare.form == 5, "fractions: 29, form 5"),
        }
    }
}
