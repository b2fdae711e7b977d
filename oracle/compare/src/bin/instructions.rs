//! Counts the instructions of the library's calls with valgrind.
//!
//!     instructions               prints the tables, and fails where a figure is more than 1 % above docs/SPEED.md
//!     instructions fills         prints a table of pages with 120 fills, whole numbers and fractions
//!     instructions patterns      prints tables of the call for patterns, and of check on sixteen patterns
//!     instructions CALL PAGES    what valgrind runs: the call on each page of so many records, or on one with so many
//!                                values, patterns, such fills, nested calls, limits or smoothings (`5`, `16 of 255`,
//!                                `stars, 16 of 255`, `whole, 1 digit`, `255 nested calls`, `127 nested limits`, `63
//!                                nested smoothings`), once; the call for patterns on each of them (`families`,
//!                                `short`)

use compare::instructions::Set;
use compare::library::Library;
use compare::{instructions, pattern_costs};
use std::arch::global_asm;
use std::process::ExitCode;
use std::{env, fs};

const DOCUMENT: &str = concat!(env!("CARGO_MANIFEST_DIR"), "/../../docs/SPEED.md");
const USAGE: &str = "usage: instructions [fills | patterns | CALL PAGES]";

/// Room for every text of the pages.
const BUFFER_BYTES: usize = 1 << 16;

// The `memcpy` and `memset` of this program and of the library in it, with one instruction for each byte. How many more
// they have stands in `callgrind`.
global_asm!(
    ".globl memcpy",
    ".type memcpy, @function",
    "memcpy:",
    "mov rax, rdi",
    "mov rcx, rdx",
    "rep movsb",
    "ret",
    ".size memcpy, . - memcpy",
    ".globl memset",
    ".type memset, @function",
    "memset:",
    "mov r8, rdi",
    "mov eax, esi",
    "mov rcx, rdx",
    "rep stosb",
    "mov rax, r8",
    "ret",
    ".size memset, . - memset",
);

fn main() -> ExitCode {
    let arguments: Vec<String> = env::args().skip(1).collect();
    let words: Vec<&str> = arguments.iter().map(String::as_str).collect();
    let result = match words.as_slice() {
        [] => compare(),
        ["fills"] => print_set(&instructions::FILLS),
        ["patterns"] => print_patterns(),
        ["pattern", patterns] => run_patterns(patterns),
        [call, pages] => run(call, pages),
        _ => Err(USAGE.into()),
    };
    match result {
        Ok(()) => ExitCode::SUCCESS,
        Err(words) => {
            eprintln!("{words}");
            ExitCode::FAILURE
        }
    }
}

fn compare() -> Result<(), String> {
    let program = env::current_exe().map_err(|error| error.to_string())?;
    let document = fs::read_to_string(DOCUMENT).map_err(|error| format!("{DOCUMENT}: {error}"))?;
    let mut excesses = Vec::new();
    for set in &instructions::SETS {
        let columns = instructions::count(set, &program)?;
        print!("{}", instructions::tables(set, &columns));
        excesses.extend(instructions::excesses(set, &columns, &document)?);
    }
    if !excesses.is_empty() {
        return Err(excesses.join("\n"));
    }
    println!("no figure is more than 1 % above docs/SPEED.md");
    Ok(())
}

fn print_set(set: &Set) -> Result<(), String> {
    let program = env::current_exe().map_err(|error| error.to_string())?;
    let columns = instructions::count(set, &program)?;
    print!("{}", instructions::tables(set, &columns));
    Ok(())
}

fn print_patterns() -> Result<(), String> {
    let program = env::current_exe().map_err(|error| error.to_string())?;
    println!("{}", pattern_costs::table(&program)?);
    print_set(&pattern_costs::PAGES)
}

fn run_patterns(patterns: &str) -> Result<(), String> {
    let library = Library::linked();
    for pattern in pattern_costs::patterns(patterns).ok_or(USAGE)? {
        // SAFETY: the pattern is a slice.
        let word = unsafe { (library.pattern)(pattern.as_ptr(), pattern.len()) };
        if word > 2 {
            return Err(format!("{patterns}: the word {word:#x}"));
        }
    }
    Ok(())
}

fn run(call: &str, pages: &str) -> Result<(), String> {
    let library = Library::linked();
    let mut buffer = vec![0; BUFFER_BYTES];
    for page in instructions::pages(pages).ok_or(USAGE)? {
        let (start, length) = (page.as_ptr(), page.len());
        let (out, room) = (buffer.as_mut_ptr(), buffer.len());
        // SAFETY: the page is a slice, and so is the buffer.
        let word = unsafe {
            match call {
                "check" => (library.check)(start, length),
                "check_table" => (library.check_table)(start, length),
                "check_operators" => (library.check_operators)(start, length),
                "check_older" => (library.check_older)(start, length),
                "check_newer" => (library.check_newer)(start, length),
                "generations" => (library.generations)(start, length),
                "copy" => (library.copy)(start, length, out, room),
                "canonical" => (library.canonical)(start, length, out, room),
                "split" => (library.split)(start, length, out, room),
                _ => return Err(USAGE.into()),
            }
        };
        if word >> 63 == 1 {
            return Err(format!("{call}, {pages}: a page is refused"));
        }
    }
    Ok(())
}
