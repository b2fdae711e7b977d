//! Libraries that read, negate, excuse or measure fractions wrongly: a fault each.

use super::{answer, buffer, check, is_accepted, slice, whole, write};
use compare::library::{Asks, Library};
use oracle::answer::{work, Outcome, Worked};
use oracle::bad_fraction::{BadFraction, Field, Wrong};
use oracle::page::read::{NumberField, Reader};
use oracle::page::record::*;
use oracle::page::write as pages;

/// What a library with a fault answers to a page that it must refuse.
const TAKEN: Outcome = Outcome::Accepted(Kind::Scalar);

/// What is wrong with the number at which the oracle stops, if it stops at one.
fn found(worked: &Worked) -> Option<BadFraction> {
    let numbers = match &worked.page[worked.literal?.start..] {
        [5 | 6, numbers @ ..] => numbers,
        _ => return None,
    };
    BadFraction::find(numbers)
}

/// Takes one way of being no fraction, the one at this place of the list.
extern "C" fn takes<const PLACE: usize>(page: *const u8, length: usize) -> u64 {
    let worked = work(slice(page, length)).expect("the Rust is foreseen");
    match found(&worked) {
        Some(bad) if Some(bad) == BadFraction::all().nth(PLACE) => TAKEN.word(0),
        _ => worked.outcome.word(0),
    }
}

/// Says 3 for digits above 10^15, as for other limits.
extern "C" fn limits_digits(page: *const u8, length: usize) -> u64 {
    let worked = work(slice(page, length)).expect("the Rust is foreseen");
    let above = BadFraction {
        field: Field::Digits,
        wrong: Wrong::TwoBeyond,
    };
    match worked.outcome {
        Outcome::Refused { record, .. } if found(&worked) == Some(above) => {
            Outcome::Refused { number: 3, record }.word(0)
        }
        outcome => outcome.word(0),
    }
}

/// Asks for operands before it reads a fill's numbers.
extern "C" fn asks_operands_first(page: *const u8, length: usize) -> u64 {
    let worked = work(slice(page, length)).expect("the Rust is foreseen");
    let is_fill = |field: NumberField| field.holder != Holder::Record;
    match worked.outcome {
        Outcome::Refused { record: 0, .. }
            if found(&worked).is_some() && worked.literal.is_some_and(is_fill) =>
        {
            Outcome::Refused {
                number: 2,
                record: 0,
            }
            .word(0)
        }
        outcome => outcome.word(0),
    }
}

fn is_logarithm(record: &Record) -> bool {
    let Record::Call { signature, .. } = record else {
        return false;
    };
    ["ln", "log2", "log10"].contains(&signature.name.text.as_ref())
}

/// Excuses every fraction under a logarithm.
extern "C" fn excuses_all(page: *const u8, length: usize) -> u64 {
    let worked = work(slice(page, length)).expect("the Rust is foreseen");
    let is_30 = matches!(worked.outcome, Outcome::Refused { number: 30, .. });
    let is_excused = matches!(worked.records.as_slice(),
        [.., Record::Number(Number::Fraction(_)), call] if is_logarithm(call));
    match is_30 && is_excused {
        true => TAKEN.word(0),
        false => worked.outcome.word(0),
    }
}

/// Excuses none.
extern "C" fn excuses_none(page: *const u8, length: usize) -> u64 {
    let worked = work(slice(page, length)).expect("the Rust is foreseen");
    let is_excused = |pair: &[Record]| match pair {
        [Record::Number(Number::NegativeFraction(_)), call] => is_logarithm(call),
        _ => false,
    };
    let place = worked.records.windows(2).position(is_excused);
    match place {
        Some(place) if worked.checked.is_some() => Outcome::Refused {
            number: 30,
            record: place + 1,
        }
        .word(0),
        _ => check(page, length),
    }
}

pub fn records(page: &[u8]) -> Vec<Record<'_>> {
    let mut reader = Reader::new(page);
    let mut records = Vec::new();
    while !reader.is_at_end() {
        records.push(reader.record().expect("an accepted page"));
    }
    records
}

/// The numbers of a page in order, those of fills too.
pub fn numbers(records: &[Record]) -> Vec<Number> {
    let numbers = records.iter().flat_map(Record::numbers);
    numbers.map(|(_, number)| number).collect()
}

/// Leaves a fraction under unary in its form.
extern "C" fn copies_form(page: *const u8, length: usize, out: *mut u8, room: usize) -> u64 {
    let mut answer = answer(page, length);
    if is_accepted(&answer) {
        let mut copied = records(&answer.copy);
        let given = numbers(&records(slice(page, length)));
        for (index, number) in numbers(&copied).into_iter().enumerate() {
            let place = copied
                .iter()
                .position(|record| *record == Record::Number(number));
            if let (Some(place), Some(_)) = (place, number.fraction()) {
                copied[place] = Record::Number(given[index]);
            }
        }
        answer.copy = pages::page(&copied);
    }
    write(&answer, &answer.copy, buffer(out, room))
}

/// Takes 100 bytes with a fraction for 101.
extern "C" fn splits_early(page: *const u8, length: usize, out: *mut u8, room: usize) -> u64 {
    let mut answer = answer(page, length);
    if is_accepted(&answer) && answer.canonical.len() == 100 {
        let numbers = numbers(&records(slice(page, length)));
        if numbers
            .into_iter()
            .any(|number| number.fraction().is_some())
        {
            answer.split.push(b'\n');
        }
    }
    write(&answer, &answer.split, buffer(out, room))
}

/// Libraries that take one way of being no fraction each.
#[rustfmt::skip]
fn taking() -> Vec<(String, Library)> {
    let checks: [Asks; 17] = [
        takes::<0>, takes::<1>, takes::<2>, takes::<3>, takes::<4>, takes::<5>, takes::<6>, takes::<7>, takes::<8>,
        takes::<9>, takes::<10>, takes::<11>, takes::<12>, takes::<13>, takes::<14>, takes::<15>, takes::<16>,
    ];
    let library = |check| Library { check, ..whole() };
    let taken = BadFraction::all().zip(checks);
    taken.map(|(bad, check)| (bad.words(), library(check))).collect()
}

/// Words for the fault, how the difference begins, the library.
#[rustfmt::skip]
pub fn faulty() -> Vec<(String, &'static str, Library)> {
    let whole = whole();
    let mut faulty = vec![
        ("3 for digits beyond their limit".into(), "check,", Library { check: limits_digits, ..whole }),
        ("2 before 1".into(), "check,", Library { check: asks_operands_first, ..whole }),
        ("every fraction excused".into(), "check,", Library { check: excuses_all, ..whole }),
        ("no fraction excused".into(), "check,", Library { check: excuses_none, ..whole }),
        ("a copy with the form that was negated".into(), "copy,", Library { copy: copies_form, ..whole }),
        ("100 bytes with a fraction split".into(), "split,", Library { split: splits_early, ..whole }),
    ];
    faulty.extend(taking().into_iter().map(|(words, library)| (words, "check,", library)));
    faulty
}
