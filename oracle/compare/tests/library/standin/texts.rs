//! Libraries whose check takes texts that it must not take, or refuses such as it must take: a fault each.

use super::{answer, check, slice, whole};
use compare::library::Library;
use oracle::answer::{work, Outcome};
use oracle::ill_formed::{completes, IllFormed};
use oracle::page::read::TextField;
use oracle::page::record::Kind;
use std::str::from_utf8;

/// What a library with a fault answers to a page at whose text the oracle stops.
const TAKEN: Outcome = Outcome::Accepted(Kind::Vector);

/// The oracle's answer; but `TAKEN` where it refuses a text so, of which `takes` is true.
fn taking(page: &[u8], refused: u8, takes: impl Fn(&TextField, &[u8]) -> bool) -> u64 {
    let worked = work(page).expect("the Rust is foreseen");
    let is_refused = matches!(worked.outcome, Outcome::Refused { number, .. } if number == refused);
    let is_taken = |field: TextField| takes(&field, field.bytes(page));
    match is_refused && worked.text.is_some_and(is_taken) {
        true => TAKEN.word(0),
        false => worked.outcome.word(0),
    }
}

/// Takes one way of being ill-formed, the one at this place of the list.
extern "C" fn takes_fault<const PLACE: usize>(page: *const u8, length: usize) -> u64 {
    let has_fault = |_: &TextField, text: &[u8]| {
        IllFormed::find(text).is_some_and(|found| found.fault == IllFormed::ALL[PLACE])
    };
    taking(slice(page, length), 4, has_fault)
}

/// Lets the bytes after a text complete it.
extern "C" fn reads_on(page: *const u8, length: usize) -> u64 {
    let page = slice(page, length);
    taking(page, 4, |field, text| {
        completes(text, &page[field.start + text.len()..])
    })
}

/// Takes UTF-8 in names.
extern "C" fn names_too(page: *const u8, length: usize) -> u64 {
    taking(slice(page, length), 4, |field, text| {
        field.kind.is_name() && !text.is_ascii() && from_utf8(text).is_ok()
    })
}

/// Counts characters for the 255 bytes of a text.
extern "C" fn counts_characters(page: *const u8, length: usize) -> u64 {
    taking(slice(page, length), 3, |field, text| {
        let characters = from_utf8(text).map(|text| text.chars().count() as u64);
        field.length > 255 && characters.is_ok_and(|count| count <= 255)
    })
}

/// Takes no byte above 127.
extern "C" fn ascii_only(page: *const u8, length: usize) -> u64 {
    let worked = work(slice(page, length)).expect("the Rust is foreseen");
    let texts = worked.records.iter().map(|record| record.texts());
    match texts.flatten().all(|(_, text)| text.text.is_ascii()) {
        true => check(page, length),
        false => Outcome::Refused {
            number: 4,
            record: 0,
        }
        .word(0),
    }
}

/// Splits where there are more than 100 characters: what has 101 bytes in fewer stays on one line.
extern "C" fn splits_by_characters(
    page: *const u8,
    length: usize,
    out: *mut u8,
    out_length: usize,
) -> u64 {
    let mut answer = answer(page, length);
    let characters = from_utf8(&answer.canonical).map(|text| text.chars().count());
    if answer.canonical.len() == 101 && characters.is_ok_and(|count| count <= 100) {
        answer.split = answer.canonical.clone();
    }
    super::write(&answer, &answer.split, super::buffer(out, out_length))
}

/// Words for the fault, how the difference begins, the library.
pub fn faulty() -> Vec<(&'static str, &'static str, Library)> {
    let checks: [extern "C" fn(*const u8, usize) -> u64; 10] = [
        takes_fault::<0>,
        takes_fault::<1>,
        takes_fault::<2>,
        takes_fault::<3>,
        takes_fault::<4>,
        takes_fault::<5>,
        takes_fault::<6>,
        takes_fault::<7>,
        takes_fault::<8>,
        takes_fault::<9>,
    ];
    let by_fault = IllFormed::ALL.into_iter().zip(checks);
    let mut faulty: Vec<_> = by_fault
        .map(|(fault, check)| (fault.words(), "check,", Library { check, ..whole() }))
        .collect();
    let with = |words, check| (words, "check,", Library { check, ..whole() });
    faulty.push(with("a text completed by what is after it", reads_on));
    faulty.push(with("UTF-8 in names", names_too));
    faulty.push(with("255 characters", counts_characters));
    faulty.push(with("ASCII alone", ascii_only));
    let split = splits_by_characters;
    faulty.push(("100 characters", "split,", Library { split, ..whole() }));
    faulty
}
