//! Libraries that print or compare fractions wrongly in canonical text: a fault each.

use super::fractions::{numbers, records};
use super::{answer, buffer, is_accepted, slice, whole, write};
use compare::library::{Library, Writes};
use oracle::page::record::{Fraction, Number, Record};

/// The oracle's canonical text, with other words in it.
fn reworded(
    (page, length): (*const u8, usize),
    (out, room): (*mut u8, usize),
    reword: impl Fn(&[Record], String) -> String,
) -> u64 {
    let mut answer = answer(page, length);
    if is_accepted(&answer) {
        let text = String::from_utf8(answer.canonical).expect("the Rust's text");
        answer.canonical = reword(&records(slice(page, length)), text).into_bytes();
    }
    write(&answer, &answer.canonical, buffer(out, room))
}

fn fraction(number: Number) -> Option<Fraction> {
    number.fraction().map(|(fraction, _)| fraction)
}

type AreAlike = fn(Number, Number) -> bool;

/// Fills that are taken for equal and are not.
#[rustfmt::skip]
const ALIKE: [(&str, AreAlike); 4] = [
    ("fills compared by digits", |left, right| {
        let [left, right] = [left, right].map(|number| fraction(number).map(Fraction::digits));
        left.is_some() && left == right
    }),
    ("fills compared without their signs", |left, right| {
        fraction(left).is_some() && fraction(left) == fraction(right)
    }),
    ("a fill like the whole number of its digits", |left, right| match (left, right) {
        (Number::Fraction(fraction), Number::Whole(whole)) => fraction.digits() == whole,
        _ => false,
    }),
    ("fills compared as floats of 32 bits", |left, right| left.value() as f32 == right.value() as f32),
];

extern "C" fn takes_alike<const PLACE: usize>(
    page: *const u8,
    length: usize,
    out: *mut u8,
    room: usize,
) -> u64 {
    let (_, are_alike) = ALIKE[PLACE];
    let one_fill = |text: String, pair: &[Number]| {
        let [left, right] = [pair[0], pair[1]];
        let [first, second] = [left, right].map(Number::value);
        let two = format!("fill_left ({first}) fill_right ({second})");
        match are_alike(left, right) {
            true => text.replace(&two, &format!("fill ({second})")),
            false => text,
        }
    };
    reworded((page, length), (out, room), |records, text| {
        numbers(records).windows(2).fold(text, one_fill)
    })
}

type Print = fn(Fraction) -> String;

/// Other texts for fractions.
#[rustfmt::skip]
const PRINTED: [(&str, Print); 4] = [
    ("no zeros after the point", |fraction| format!("{}.{}", fraction.whole_part(), fraction.after_point())),
    ("no whole part", |fraction| fraction.value().to_string().trim_start_matches('0').into()),
    ("exponents", |fraction| format!("{:?}", fraction.value())),
    ("products rounded twice", |fraction| {
        let power = 10f64.powi(-(fraction.places() as i32));
        (fraction.digits() as f64 * power).to_string()
    }),
];

extern "C" fn prints<const PLACE: usize>(
    page: *const u8,
    length: usize,
    out: *mut u8,
    room: usize,
) -> u64 {
    let (_, print) = PRINTED[PLACE];
    let misprinted = |text: String, fraction: Fraction| {
        text.replace(&fraction.value().to_string(), &print(fraction))
    };
    reworded((page, length), (out, room), |records, text| {
        let fractions = numbers(records).into_iter().filter_map(fraction);
        fractions.fold(text, misprinted)
    })
}

/// Reads form 6 as plus where it stands alone.
extern "C" fn prints_plus(page: *const u8, length: usize, out: *mut u8, room: usize) -> u64 {
    reworded((page, length), (out, room), |records, text| match records {
        [Record::Number(Number::NegativeFraction(_))] => text.replace('-', ""),
        _ => text,
    })
}

/// Words for the fault, the library.
pub fn faulty() -> Vec<(&'static str, Library)> {
    let alike: [Writes; 4] = [
        takes_alike::<0>,
        takes_alike::<1>,
        takes_alike::<2>,
        takes_alike::<3>,
    ];
    let printed: [Writes; 4] = [prints::<0>, prints::<1>, prints::<2>, prints::<3>];
    let alike = ALIKE.into_iter().zip(alike);
    let printed = PRINTED.into_iter().zip(printed);
    let mut calls: Vec<_> = alike.map(|((words, _), call)| (words, call)).collect();
    calls.extend(printed.map(|((words, _), call)| (words, call)));
    calls.push(("form 6 as plus", prints_plus));
    let library = |canonical| Library {
        canonical,
        ..whole()
    };
    calls
        .into_iter()
        .map(|(words, call)| (words, library(call)))
        .collect()
}
