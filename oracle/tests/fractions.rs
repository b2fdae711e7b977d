//! Fractions (document 02, No. 5): what is generated has the outcome and the fault that it was made for, and the
//! sentences of the request are true of what the Rust prints and compares.

use oracle::answer::{self, Outcome};
use oracle::bad_fraction::{BadFraction, Field, Wrong};
use oracle::fill_pair::FillPair;
use oracle::generate::{fractions, Generator, Made, Scope};
use oracle::hex;
use oracle::page::read::Reader;
use oracle::page::record::{Fraction, Kind, Number, Record};
use oracle::page::{write, MAX_DIGITS, MAX_PLACES};
use oracle::random::Random;

fn assert_made(made: &Made) {
    let page = &made.page;
    let outcome = answer::answer(page).expect("the Rust is foreseen").outcome;
    assert_eq!(outcome, made.expected, "{}", hex::text(page));
}

#[test]
fn generated_fractions_have_their_outcome() {
    let random = &mut Random::new(6);
    fractions::fixed().for_each(|made| assert_made(&made));
    for _ in 0..20_000 {
        assert_made(&fractions::random(random));
    }
}

/// All digits up to 20,000, as many below 10^15, and others, with every count of places.
fn tried() -> impl Iterator<Item = Fraction> {
    let mut random = Random::new(7);
    let others = (0..20_000).map(move |_| random.word() % MAX_DIGITS + 1);
    let digits = (1..=20_000).chain(MAX_DIGITS - 19_999..=MAX_DIGITS);
    let fractions = digits
        .chain(others)
        .flat_map(|digits| (1..=MAX_PLACES).map(move |places| Fraction::new(digits, places)));
    fractions.flatten()
}

/// Whole part, point and exactly so many digits, by whole numbers alone.
fn expansion(fraction: Fraction) -> String {
    let places = fraction.places() as usize;
    let (whole, after) = (fraction.whole_part(), fraction.after_point());
    format!("{whole}.{after:0places$}")
}

#[test]
fn the_rust_prints_the_decimal_expansion() {
    let mut count = 0;
    for fraction in tried() {
        let text = expansion(fraction);
        assert_eq!(fraction.value().to_string(), text);
        assert_eq!((-fraction.value()).to_string(), format!("-{text}"));
        count += 1;
    }
    assert!(count > 800_000, "{count} fractions");
}

/// Digits and power are floats themselves, so that the quotient is rounded once.
#[test]
fn the_value_is_the_nearest_float() {
    for fraction in tried() {
        let power = 10u64.pow(fraction.places() as u32);
        let quotient = fraction.digits() as f64 / power as f64;
        assert_eq!(fraction.value(), quotient, "{fraction:?}");
    }
}

/// The form is found again by the value, which is how the copy of a negated number gets its own.
#[test]
fn a_value_has_one_form() {
    for fraction in tried() {
        for number in [
            Number::Fraction(fraction),
            Number::NegativeFraction(fraction),
        ] {
            assert_eq!(Number::of_value(number.value()), number);
            assert_eq!(
                Number::of_value(-number.value()).fraction(),
                negated(number)
            );
        }
    }
}

fn negated(number: Number) -> Option<(Fraction, bool)> {
    let (fraction, is_minus) = number.fraction()?;
    Some((fraction, !is_minus))
}

/// "compare by value in fills": the Rust's floats are equal only where sign, digits and places are.
#[test]
fn fills_are_equal_only_if_they_are_the_same() {
    let random = &mut Random::new(8);
    let mut generator = Generator::new(random, 8, Scope::Fractions);
    for pair in FillPair::all() {
        for round in 0..2_000 {
            let (left, right) = generator.fill_pair(pair, round % 2 == 1);
            assert_eq!(
                FillPair::find(left, right),
                Some(pair),
                "{left:?} {right:?}"
            );
            let are_equal = left.value() == right.value();
            assert_eq!(are_equal, pair == FillPair::Same, "{left:?} {right:?}");
        }
    }
}

#[test]
fn faults_are_told_apart() {
    use Field::{Digits, Places};
    for (notation, field, wrong) in [
        ("", Digits, Wrong::Missing),
        ("df", Digits, Wrong::CutShort),
        ("df00 02", Digits, Wrong::NotShortest),
        ("8180808080808010 02", Digits, Wrong::AboveNumbers),
        ("ff*9;", Digits, Wrong::AboveNumbers),
        ("00 01", Digits, Wrong::Zero),
        ("0a 01", Digits, Wrong::EndsInZero),
        ("b607 03", Digits, Wrong::EndsInZero),
        ("80809aa6eaafe301 01", Digits, Wrong::OneBeyond),
        ("81809aa6eaafe301 01", Digits, Wrong::TwoBeyond),
        ("8080808080808010 01", Digits, Wrong::FarBeyond),
        ("5f", Places, Wrong::Missing),
        ("5f 82", Places, Wrong::CutShort),
        ("5f 8200", Places, Wrong::NotShortest),
        ("5f 8180808080808010", Places, Wrong::AboveNumbers),
        ("5f 00", Places, Wrong::Zero),
        ("5f 10", Places, Wrong::OneBeyond),
        ("5f 11", Places, Wrong::TwoBeyond),
        ("5f ff01", Places, Wrong::FarBeyond),
    ] {
        let found = BadFraction::find(&hex::bytes(notation));
        assert_eq!(found, Some(BadFraction { field, wrong }), "{notation}");
    }
    assert_eq!(BadFraction::find(&hex::bytes("5f 02 00")), None);
    assert_eq!(BadFraction::all().count(), 17);
}

/// A fault is found exactly where reading stops with 1.
#[test]
fn what_has_no_fault_is_read() {
    let random = &mut Random::new(9);
    for _ in 0..100_000 {
        let length = random.between(0, 9);
        let numbers: Vec<u8> = (0..length)
            .map(|_| random.byte() >> random.below(4))
            .collect();
        for form in [5, 6] {
            let page = [&[0, form], numbers.as_slice()].concat();
            let read = Reader::new(&page).record();
            let is_bad = BadFraction::find(&numbers).is_some();
            assert_eq!(read.is_err(), is_bad, "{}", hex::text(&page));
            assert_eq!(read.is_err(), read == Err(1));
        }
    }
}

/// Every form of a number is a scalar, and comes back from the page as it was written.
#[test]
fn fractions_are_read_as_they_are_written() {
    for fraction in tried().step_by(37) {
        for number in [
            Number::Fraction(fraction),
            Number::NegativeFraction(fraction),
        ] {
            let page = write::page(&[Record::Number(number)]);
            assert_eq!(Reader::new(&page).record(), Ok(Record::Number(number)));
            let answer = answer::answer(&page).expect("the Rust is foreseen");
            assert_eq!(answer.outcome, Outcome::Accepted(Kind::Scalar));
            assert_eq!(answer.copy, page);
        }
    }
}
