//! The lines that the reading program prints for a page, here from the oracle's own reading.
//!
//! A line for each record from the left: where the next record begins, the record's kind, its fields in the order of the
//! page. A text is its start and its size, a list its count and its elements. The last line says how the page ended.

use crate::page::read::Reader;
use crate::page::record::*;

pub fn lines(page: &[u8]) -> Vec<String> {
    let mut reader = Reader::new(page);
    let mut lines = Vec::new();
    while !reader.is_at_end() {
        match reader.record() {
            Ok(record) => lines.push(line(reader.position(), &record)),
            Err(fault) => {
                lines.push(format!("fault {fault} at {}", lines.len()));
                return lines;
            }
        }
    }
    lines.push(format!("end {}", lines.len()));
    lines
}

fn line(next: usize, record: &Record) -> String {
    let mut shown = Shown(vec![next as u64, record.kind_number().into()]);
    shown.fields(record);
    let words: Vec<String> = shown.0.iter().map(u64::to_string).collect();
    words.join(" ")
}

/// The numbers of a line.
struct Shown(Vec<u64>);

impl Shown {
    fn number(&mut self, number: impl Into<u64>) {
        self.0.push(number.into());
    }

    fn size(&mut self, size: usize) {
        self.number(size as u64);
    }

    fn text(&mut self, text: &Text) {
        self.size(text.start);
        self.size(text.text.len());
    }

    fn labels(&mut self, choice: u64, labels: &[Text]) {
        self.number(choice);
        self.size(labels.len());
        labels.iter().for_each(|label| self.text(label));
    }

    fn fraction(&mut self, form: u64, fraction: Fraction) {
        self.0.extend([form, fraction.digits(), fraction.places()]);
    }

    fn literal(&mut self, literal: Number) {
        match literal {
            Number::Whole(magnitude) => self.0.extend([0, magnitude]),
            Number::NegativeWhole(magnitude) => self.0.extend([1, magnitude]),
            Number::NaN => self.number(2u64),
            Number::Inf => self.number(3u64),
            Number::NegativeInf => self.number(4u64),
            Number::Fraction(fraction) => self.fraction(5, fraction),
            Number::NegativeFraction(fraction) => self.fraction(6, fraction),
        }
    }

    fn matcher(&mut self, matcher: &Matcher) {
        let (operation, flag) = match matcher.operation {
            Operation::Equal => (0u64, None),
            Operation::NotEqual => (1, None),
            Operation::Regex(flag) => (2, Some(flag)),
            Operation::NotRegex(flag) => (3, Some(flag)),
        };
        self.number(operation);
        self.text(&matcher.name);
        self.text(&matcher.value);
        self.0.extend(flag.map(u64::from));
    }

    fn at(&mut self, at: At) {
        match at {
            At::Start => self.number(0u64),
            At::End => self.number(1u64),
            At::After(milliseconds) => self.0.extend([2, milliseconds]),
            At::Before(milliseconds) => self.0.extend([3, milliseconds]),
        }
    }

    fn fill(&mut self, fill: Option<Number>) {
        self.number(fill.is_some());
        if let Some(literal) = fill {
            self.literal(literal);
        }
    }

    fn modifier(&mut self, modifier: &Modifier) {
        self.number(modifier.is_bool);
        match &modifier.matching {
            Matching::None => self.number(0u64),
            Matching::On(list) => self.labels(1, list),
            Matching::Ignoring(list) => self.labels(2, list),
        }
        match &modifier.cardinality {
            Cardinality::OneToOne => self.number(0u64),
            Cardinality::GroupLeft(list) => self.labels(1, list),
            Cardinality::GroupRight(list) => self.labels(2, list),
            Cardinality::ManyToMany => self.number(3u64),
        }
        self.fill(modifier.left_fill);
        self.fill(modifier.right_fill);
    }

    fn signature(&mut self, signature: &Signature) {
        self.text(&signature.name);
        self.size(signature.kinds.len());
        self.0
            .extend(signature.kinds.iter().map(|kind| kind.number()));
        match signature.extra {
            Extra::Fixed => self.number(0u64),
            Extra::Unlimited => self.number(1u64),
            Extra::Upper(upper) => self.0.extend([2, upper]),
        }
        self.number(signature.result.number());
    }

    fn binary(&mut self, code: u8, modifier: &Option<Modifier>) {
        self.0.extend([u64::from(code), modifier.is_some().into()]);
        if let Some(modifier) = modifier {
            self.modifier(modifier);
        }
    }

    fn grouping(&mut self, grouping: &Grouping) {
        match grouping {
            Grouping::None => self.number(0u64),
            Grouping::By(list) => self.labels(1, list),
            Grouping::Without(list) => self.labels(2, list),
        }
    }

    fn fields(&mut self, record: &Record) {
        match record {
            Record::Number(literal) => self.literal(*literal),
            Record::String(text) => self.text(text),
            Record::Selector { name, matchers } => {
                self.text(name);
                self.size(matchers.len());
                matchers.iter().for_each(|matcher| self.matcher(matcher));
            }
            Record::Range(range) => self.number(*range),
            Record::Subquery { range, step } => {
                self.0.extend([*range, step.is_some().into()]);
                self.0.extend(step);
            }
            Record::At(at) => self.at(*at),
            Record::Offset {
                is_minus,
                milliseconds,
            } => self.0.extend([u64::from(*is_minus), *milliseconds]),
            Record::Unary | Record::Paren => {}
            Record::Binary { code, modifier } => self.binary(*code, modifier),
            Record::Aggregate {
                code,
                grouping,
                arguments,
            } => {
                self.number(*code);
                self.grouping(grouping);
                self.size(*arguments);
            }
            Record::Call {
                signature,
                arguments,
            } => {
                self.signature(signature);
                self.size(*arguments);
            }
        }
    }
}
