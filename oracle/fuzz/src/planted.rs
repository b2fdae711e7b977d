//! The library with a fault that only a few pages show, those with a second offset on an expression. `PLANTED` names it.

use compare::library::Library;
use std::env;

const OFFSET_TWICE: u64 = 12;

pub fn library() -> Library {
    let whole = Library::linked();
    match env::var("PLANTED").as_deref() {
        Ok("number") => Library {
            check: misnumbering,
            ..whole
        },
        Ok("straying") => Library {
            check: straying,
            ..whole
        },
        other => panic!("PLANTED is {other:?}"),
    }
}

fn is_offset_twice(word: u64) -> bool {
    word >> 63 == 1 && word >> 16 & 0xff == OFFSET_TWICE
}

/// Answers 13 for 12.
unsafe extern "C" fn misnumbering(page: *const u8, length: usize) -> u64 {
    // SAFETY: the caller's page.
    let word = unsafe { (Library::linked().check)(page, length) };
    word + u64::from(is_offset_twice(word)) * 65_536
}

/// Reads a byte after the page.
unsafe extern "C" fn straying(page: *const u8, length: usize) -> u64 {
    // SAFETY: the caller's page.
    let word = unsafe { (Library::linked().check)(page, length) };
    if is_offset_twice(word) {
        // SAFETY: none; this is the fault.
        unsafe { page.add(length).read_volatile() };
    }
    word
}
