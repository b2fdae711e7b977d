//! Writing of records onto a page: the shortest form of every number, the fields in the order of documents 01 and 02.

use super::record::*;

pub fn number(page: &mut Vec<u8>, mut value: u64) {
    while value >= 0x80 {
        page.push(value as u8 | 0x80);
        value >>= 7;
    }
    page.push(value as u8);
}

pub fn text(page: &mut Vec<u8>, text: &str) {
    number(page, text.len() as u64);
    page.extend_from_slice(text.as_bytes());
}

fn list<T>(page: &mut Vec<u8>, elements: &[T], element: impl Fn(&mut Vec<u8>, &T)) {
    number(page, elements.len() as u64);
    for each in elements {
        element(page, each);
    }
}

fn labels(page: &mut Vec<u8>, labels: &[Text]) {
    list(page, labels, |page, label| text(page, &label.text));
}

fn fraction(page: &mut Vec<u8>, form: u64, fraction: Fraction) {
    number(page, form);
    number(page, fraction.digits());
    number(page, fraction.places());
}

fn literal(page: &mut Vec<u8>, literal: Number) {
    match literal {
        Number::Whole(magnitude) => {
            number(page, 0);
            number(page, magnitude);
        }
        Number::NegativeWhole(magnitude) => {
            number(page, 1);
            number(page, magnitude);
        }
        Number::NaN => number(page, 2),
        Number::Inf => number(page, 3),
        Number::NegativeInf => number(page, 4),
        Number::Fraction(value) => fraction(page, 5, value),
        Number::NegativeFraction(value) => fraction(page, 6, value),
    }
}

fn matcher(page: &mut Vec<u8>, matcher: &Matcher) {
    let (operation, flag) = match matcher.operation {
        Operation::Equal => (0, None),
        Operation::NotEqual => (1, None),
        Operation::Regex(flag) => (2, Some(flag)),
        Operation::NotRegex(flag) => (3, Some(flag)),
    };
    number(page, operation);
    text(page, &matcher.name.text);
    text(page, &matcher.value.text);
    if let Some(flag) = flag {
        number(page, flag.into());
    }
}

fn optional(page: &mut Vec<u8>, value: Option<u64>) {
    match value {
        None => number(page, 0),
        Some(value) => {
            number(page, 1);
            number(page, value);
        }
    }
}

fn at(page: &mut Vec<u8>, at: At) {
    match at {
        At::Start => number(page, 0),
        At::End => number(page, 1),
        At::After(milliseconds) => {
            number(page, 2);
            number(page, milliseconds);
        }
        At::Before(milliseconds) => {
            number(page, 3);
            number(page, milliseconds);
        }
    }
}

/// A number that says which of several forms follows, and the form's labels if it has some.
fn choice(page: &mut Vec<u8>, choice: u64, list: Option<&[Text]>) {
    number(page, choice);
    if let Some(list) = list {
        labels(page, list);
    }
}

fn fill(page: &mut Vec<u8>, fill: Option<Number>) {
    number(page, fill.is_some().into());
    if let Some(value) = fill {
        literal(page, value);
    }
}

fn modifier(page: &mut Vec<u8>, modifier: &Modifier) {
    number(page, modifier.is_bool.into());
    match &modifier.matching {
        Matching::None => choice(page, 0, None),
        Matching::On(list) => choice(page, 1, Some(list)),
        Matching::Ignoring(list) => choice(page, 2, Some(list)),
    }
    match &modifier.cardinality {
        Cardinality::OneToOne => choice(page, 0, None),
        Cardinality::GroupLeft(list) => choice(page, 1, Some(list)),
        Cardinality::GroupRight(list) => choice(page, 2, Some(list)),
        Cardinality::ManyToMany => choice(page, 3, None),
    }
    fill(page, modifier.left_fill);
    fill(page, modifier.right_fill);
}

/// A signature behind its name: kinds, extra, result.
pub fn signature(page: &mut Vec<u8>, signature: &Signature) {
    list(page, &signature.kinds, |page, kind| {
        number(page, kind.number())
    });
    match signature.extra {
        Extra::Fixed => number(page, 0),
        Extra::Unlimited => number(page, 1),
        Extra::Upper(upper) => {
            number(page, 2);
            number(page, upper);
        }
    }
    number(page, signature.result.number());
}

fn function(page: &mut Vec<u8>, called: &Signature) {
    text(page, &called.name.text);
    signature(page, called);
}

fn binary(page: &mut Vec<u8>, code: u8, given: &Option<Modifier>) {
    number(page, code.into());
    number(page, given.is_some().into());
    if let Some(given) = given {
        modifier(page, given);
    }
}

fn grouping(page: &mut Vec<u8>, grouping: &Grouping) {
    match grouping {
        Grouping::None => choice(page, 0, None),
        Grouping::By(list) => choice(page, 1, Some(list)),
        Grouping::Without(list) => choice(page, 2, Some(list)),
    }
}

pub fn record(page: &mut Vec<u8>, record: &Record) {
    number(page, record.kind_number().into());
    match record {
        Record::Number(value) => literal(page, *value),
        Record::String(value) => text(page, &value.text),
        Record::Selector { name, matchers } => {
            text(page, &name.text);
            list(page, matchers, matcher);
        }
        Record::Range(range) => number(page, *range),
        Record::Subquery { range, step } => {
            number(page, *range);
            optional(page, *step);
        }
        Record::At(form) => at(page, *form),
        Record::Offset {
            is_minus,
            milliseconds,
        } => {
            number(page, (*is_minus).into());
            number(page, *milliseconds);
        }
        Record::Unary | Record::Paren => {}
        Record::Binary { code, modifier } => binary(page, *code, modifier),
        Record::Aggregate {
            code,
            grouping: list,
            arguments,
        } => {
            number(page, (*code).into());
            grouping(page, list);
            number(page, *arguments as u64);
        }
        Record::Call {
            signature: called,
            arguments,
        } => {
            function(page, called);
            number(page, *arguments as u64);
        }
    }
}

/// The records one after another.
pub fn page(records: &[Record]) -> Vec<u8> {
    let mut page = Vec::new();
    for each in records {
        record(&mut page, each);
    }
    page
}
