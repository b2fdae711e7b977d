//! Every text of one, two and three bytes as a string, and every text of one and two bytes as each other kind of text,
//! through `check`. Strings, labels and matchers are held to the Rust's `from_utf8`, names to the oracle's reading.

use crate::library::Library;
use crate::trap;
use oracle::answer::{self, Outcome};
use oracle::covered;
use oracle::generate::carriers::Page;
use oracle::hex;
use oracle::page::record::Kind;
use oracle::page::text_kind::TextKind;
use oracle::refusal::WRONG_FLAG;
use std::str::from_utf8;

/// How many pages were tried without a difference.
#[derive(Debug, Default, PartialEq)]
pub struct Tally {
    pub strings: u64,
    pub others: u64,
}

/// What was tried, or the first difference.
pub fn compare(library: Library) -> Result<Tally, String> {
    trap::set();
    let mut tally = Tally::default();
    for length in 1..=3 {
        tally.strings += strings(library, length)?;
    }
    for kind in TextKind::ALL {
        if kind != TextKind::String {
            tally.others += of_kind(library, kind)?;
        }
    }
    Ok(tally)
}

/// All strings of so many bytes, each a page of its own.
fn strings(library: Library, length: usize) -> Result<u64, String> {
    let accepted = Outcome::Accepted(Kind::String);
    let refused = Outcome::Refused {
        number: 4,
        record: 0,
    };
    let count = 1u32 << (8 * length);
    let mut page = vec![0; 2 + length];
    page[0] = 1;
    page[1] = length as u8;
    for number in 0..count {
        let text = &number.to_be_bytes()[4 - length..];
        page[2..].copy_from_slice(text);
        judge(
            library,
            &page,
            if from_utf8(text).is_ok() {
                accepted
            } else {
                refused
            },
        )?;
    }
    Ok(count.into())
}

/// All texts of one and two bytes as this kind; a pattern has the flag 0.
fn of_kind(library: Library, kind: TextKind) -> Result<u64, String> {
    let around = Page::of(kind);
    let mut count = 0;
    for length in 1..=2 {
        for number in 0..1u32 << (8 * length) {
            let text = &number.to_be_bytes()[4 - length..];
            let page = around.with(text, &[]);
            let expected = match from_utf8(text) {
                _ if kind.is_name() => answer::answer(&page).map_err(|failure| failure.0)?.outcome,
                Ok(_) if kind.is_pattern() && covered::word(text) == 1 => {
                    around.refused(WRONG_FLAG)
                }
                Ok(_) => around.accepted(),
                Err(_) => around.refused(4),
            };
            judge(library, &page, expected)?;
            count += 1;
        }
    }
    Ok(count)
}

fn judge(library: Library, page: &[u8], expected: Outcome) -> Result<(), String> {
    // SAFETY: so many bytes lie there.
    let word = trap::naming(page, || unsafe {
        (library.check)(page.as_ptr(), page.len())
    });
    if word == expected.word(0) {
        return Ok(());
    }
    let page = hex::text(page);
    Err(format!(
        "check: the word {word:#x}, expected {expected:?}\npage: {page}"
    ))
}
