//! Numbers, as records and as fills, and strings.

use super::{replaced, varied, Change};
use crate::page::record::*;
use crate::page::{MAX_NUMBER, MAX_TEXT_BYTES};
use crate::random::Random;

/// Two numbers, made of the one that the page has.
type Pair = fn(Number) -> Option<[Number; 2]>;

pub const CHANGES: &[Change] = &[
    Change::other("0 and -0", |random, records| number(random, records, zeros)),
    Change::other("a number and its negative", |random, records| {
        number(random, records, negated)
    }),
    Change::other("a whole number and the next", |random, records| {
        number(random, records, next)
    }),
    Change::other(
        "a whole number and the fraction of its digits",
        |random, records| number(random, records, shifted),
    ),
    Change::other(
        "a fraction and the same digits in other places",
        |random, records| number(random, records, places),
    ),
    Change::other("a fraction and other digits", |random, records| {
        number(random, records, digits)
    }),
    Change::other("NaN and Inf", |random, records| {
        number(random, records, |_| Some([Number::NaN, Number::Inf]))
    }),
    Change::other("Inf and -Inf", |random, records| {
        number(random, records, |_| {
            Some([Number::Inf, Number::NegativeInf])
        })
    }),
    Change::other("a fill of 0 and of -0", |random, records| {
        fill(random, records, zeros)
    }),
    Change::other("a fill and its negative", |random, records| {
        fill(random, records, negated)
    }),
    Change::other(
        "a fill of a whole number and of its digits' fraction",
        |random, records| fill(random, records, shifted),
    ),
    Change::other(
        "a fill of the same digits in other places",
        |random, records| fill(random, records, places),
    ),
    Change::other("a fill of NaN and of Inf", |random, records| {
        fill(random, records, |_| Some([Number::NaN, Number::Inf]))
    }),
    Change::other("a string and a longer one", |random, records| {
        replaced(random, records, |_, record| match record {
            Record::String(text) => Some(Record::String(longer(text)?)),
            _ => None,
        })
    }),
];

/// The text and one letter more, if there is room for it.
pub(super) fn longer<'a>(text: &Text) -> Option<Text<'a>> {
    let has_room = (text.text.len() as u64) < MAX_TEXT_BYTES;
    has_room.then(|| Text::from(format!("{}x", text.text).as_str()))
}

fn zeros(_: Number) -> Option<[Number; 2]> {
    Some([Number::Whole(0), Number::NegativeWhole(0)])
}

fn negated(number: Number) -> Option<[Number; 2]> {
    let negative = Number::of_value(-number.value());
    (number != Number::NaN).then_some([number, negative])
}

fn next(number: Number) -> Option<[Number; 2]> {
    match number {
        Number::Whole(whole) if whole < MAX_NUMBER => Some([number, Number::Whole(whole + 1)]),
        _ => None,
    }
}

fn shifted(number: Number) -> Option<[Number; 2]> {
    match number {
        Number::Whole(whole) => Some([number, Number::Fraction(Fraction::new(whole, 1)?)]),
        Number::Fraction(fraction) => Some([number, Number::Whole(fraction.digits())]),
        _ => None,
    }
}

fn places(number: Number) -> Option<[Number; 2]> {
    let (fraction, _) = number.fraction()?;
    let (digits, places) = (fraction.digits(), fraction.places());
    let other = Fraction::new(digits, places + 1).or(Fraction::new(digits, places - 1))?;
    Some([Number::Fraction(fraction), Number::Fraction(other)])
}

fn digits(number: Number) -> Option<[Number; 2]> {
    let (fraction, _) = number.fraction()?;
    let (digits, places) = (fraction.digits(), fraction.places());
    let other = Fraction::new(digits + 1, places).or(Fraction::new(digits - 1, places))?;
    Some([Number::Fraction(fraction), Number::Fraction(other)])
}

fn number<'a>(
    random: &mut Random,
    records: &mut [Record<'a>],
    pair: Pair,
) -> Option<Vec<Record<'a>>> {
    replaced(random, records, |_, record| {
        varied(record, number_of, |number| pair(*number))
    })
}

fn number_of<'r>(record: &'r mut Record) -> Option<&'r mut Number> {
    match record {
        Record::Number(number) => Some(number),
        _ => None,
    }
}

fn fill<'a>(
    random: &mut Random,
    records: &mut [Record<'a>],
    pair: Pair,
) -> Option<Vec<Record<'a>>> {
    replaced(random, records, |random, record| {
        let side = [left_fill, right_fill][random.below(2)];
        varied(record, side, |number| pair(*number))
    })
}

fn left_fill<'r>(record: &'r mut Record) -> Option<&'r mut Number> {
    modifier(record)?.left_fill.as_mut()
}

fn right_fill<'r>(record: &'r mut Record) -> Option<&'r mut Number> {
    modifier(record)?.right_fill.as_mut()
}

/// The modifier that an operator has.
pub(super) fn modifier<'r, 'a>(record: &'r mut Record<'a>) -> Option<&'r mut Modifier<'a>> {
    match record {
        Record::Binary { modifier, .. } => modifier.as_mut(),
        _ => None,
    }
}
