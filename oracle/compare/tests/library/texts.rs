//! The comparison of short texts passes a library that reads as the oracle does, and finds those that test texts
//! wrongly.

use crate::standin;
use compare::library::Library;
use compare::short_texts::{compare, Tally};
use oracle::answer::Outcome;
use oracle::page::read::{Reader, TextField};
use oracle::page::record::Kind;
use oracle::page::text_kind::TextKind;
use oracle::refusal::WRONG_FLAG;
use oracle::tree;
use std::slice;

const TEXT: u8 = 4;

/// The kind of the pages that are tried, if all their records can be read; `forgives` lets a text by that cannot.
fn read(start: *const u8, length: usize, forgives: fn(TextKind, &[u8]) -> bool) -> u64 {
    // SAFETY: the comparison lends so many bytes.
    let page = unsafe { slice::from_raw_parts(start, length) };
    let kind = if page[0] == 1 {
        Kind::String
    } else {
        Kind::Vector
    };
    let is_forgiven = |text: &TextField| forgives(text.kind, text.bytes(page));
    let mut reader = Reader::new(page);
    let mut record = 0;
    while !reader.is_at_end() {
        match reader.record() {
            Ok(read) if tree::has_wrong_flag(&read) => {
                let number = WRONG_FLAG;
                return Outcome::Refused { number, record }.word(0);
            }
            Ok(_) => record += 1,
            Err(TEXT) if reader.text.as_ref().is_some_and(is_forgiven) => break,
            Err(number) => return Outcome::Refused { number, record }.word(0),
        }
    }
    Outcome::Accepted(kind).word(0)
}

extern "C" fn right(start: *const u8, length: usize) -> u64 {
    read(start, length, |_, _| false)
}

/// The rule before UTF-8: no byte above 127, wherever it stands on the page.
extern "C" fn ascii_only(start: *const u8, length: usize) -> u64 {
    // SAFETY: the comparison lends so many bytes.
    match unsafe { slice::from_raw_parts(start, length) }.is_ascii() {
        true => right(start, length),
        false => Outcome::Refused {
            number: TEXT,
            record: 0,
        }
        .word(0),
    }
}

extern "C" fn metric_names_too(start: *const u8, length: usize) -> u64 {
    read(start, length, |kind, text| {
        kind == TextKind::MetricName && !text.is_ascii() && std::str::from_utf8(text).is_ok()
    })
}

extern "C" fn function_names_too(start: *const u8, length: usize) -> u64 {
    read(start, length, |kind, text| {
        kind == TextKind::FunctionName && !text.is_ascii() && std::str::from_utf8(text).is_ok()
    })
}

extern "C" fn labels_untested(start: *const u8, length: usize) -> u64 {
    read(start, length, |kind, _| kind == TextKind::GroupRight)
}

extern "C" fn patterns_untested(start: *const u8, length: usize) -> u64 {
    read(start, length, |kind, _| kind.is_pattern())
}

extern "C" fn overlong(start: *const u8, length: usize) -> u64 {
    read(start, length, |_, text| matches!(text, [0xc0, 0x80]))
}

#[test]
fn the_oracles_reading_passes() {
    let library = Library {
        check: right,
        ..standin::whole()
    };
    let expected = Tally {
        strings: 256 + 65_536 + 16_777_216,
        others: 12 * (256 + 65_536),
    };
    assert_eq!(compare(library), Ok(expected));
}

#[test]
fn wrong_tests_of_texts_are_found() {
    for check in [
        ascii_only,
        metric_names_too,
        function_names_too,
        labels_untested,
        patterns_untested,
        overlong,
    ] {
        let library = Library {
            check,
            ..standin::whole()
        };
        let difference = compare(library).expect_err("a wrong test");
        assert!(difference.contains("\npage: "), "{difference}");
    }
}
