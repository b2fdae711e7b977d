//! Libraries that read or write where they must not: the machine stops them.

use super::{check, copy, functions, patterns, which_generations, whole};
use compare::library::Library;

#[rustfmt::skip]
pub fn library(name: &str) -> Library {
    let whole = whole();
    match name {
        "reads behind the page" => Library { check: reads_behind, ..whole },
        "reads before the page" => Library { check: reads_before, ..whole },
        "asks the table behind the page" => Library { check_table: reads_behind, ..whole },
        "asks for a parameter behind the page" => Library { check_operators: reads_behind, ..whole },
        "asks the older table behind the page" => Library { check_older: reads_behind, ..whole },
        "asks the newer table behind the page" => Library { check_newer: reads_behind, ..whole },
        "asks for generations behind the page" => Library { generations: answers_behind, ..whole },
        "writes behind the buffer" => Library { copy: writes_behind, ..whole },
        "writes to the page" => Library { copy: writes_page, ..whole },
        "reads behind the pattern" => Library { pattern: patterns::reads_behind, ..whole },
        "writes to the pattern" => Library { pattern: patterns::writes_pattern, ..whole },
        "reads behind the name" => Library { signature: functions::reads_behind, ..whole },
        "writes to the name" => Library { signature: functions::writes_name, ..whole },
        "writes behind the signature" => Library { signature: functions::writes_behind, ..whole },
        _ => panic!("no such library"),
    }
}

pub const ALL: [&str; 14] = [
    "reads behind the page",
    "reads before the page",
    "writes behind the buffer",
    "writes to the page",
    "reads behind the pattern",
    "writes to the pattern",
    "reads behind the name",
    "writes to the name",
    "writes behind the signature",
    "asks the table behind the page",
    "asks for a parameter behind the page",
    "asks the older table behind the page",
    "asks the newer table behind the page",
    "asks for generations behind the page",
];

extern "C" fn reads_behind(page: *const u8, length: usize) -> u64 {
    // SAFETY: none, that is the fault: the byte after the page.
    let _ = unsafe { page.add(length).read_volatile() };
    check(page, length)
}

extern "C" fn answers_behind(page: *const u8, length: usize) -> u64 {
    reads_behind(page, length);
    which_generations(page, length)
}

extern "C" fn reads_before(page: *const u8, length: usize) -> u64 {
    // SAFETY: none, that is the fault: the byte before the page.
    let _ = unsafe { page.sub(1).read_volatile() };
    check(page, length)
}

extern "C" fn writes_behind(
    page: *const u8,
    length: usize,
    out: *mut u8,
    out_length: usize,
) -> u64 {
    // SAFETY: none, that is the fault: the byte after the buffer, with the value that it has.
    unsafe {
        let behind = out.add(out_length);
        behind.write_volatile(behind.read_volatile());
    }
    copy(page, length, out, out_length)
}

extern "C" fn writes_page(page: *const u8, length: usize, out: *mut u8, out_length: usize) -> u64 {
    if length > 0 {
        // SAFETY: none, that is the fault: the page is lent for reading, though the value stays.
        unsafe { page.cast_mut().write_volatile(*page) };
    }
    copy(page, length, out, out_length)
}
