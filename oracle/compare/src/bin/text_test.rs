//! The test of texts by itself.
//!
//!     text_test          short texts, every character, every start, length and place, held against the Rust's
//!                        `from_utf8` and `is_ascii`
//!     text_test time     nanoseconds at several lengths, by words and by bytes; with characters beyond ASCII beside
//!                        the Rust's `from_utf8`

use compare::text_test::{self, TextTest};
use std::process::ExitCode;

const USAGE: &str = "usage: text_test [time]";

fn main() -> ExitCode {
    let arguments: Vec<String> = std::env::args().skip(1).collect();
    let words: Vec<&str> = arguments.iter().map(String::as_str).collect();
    let test = TextTest::linked();
    let result = match words.as_slice() {
        [] => compare(&test),
        ["time"] => {
            text_test::print_times(&test);
            Ok(())
        }
        _ => Err(USAGE.to_string()),
    };
    match result {
        Ok(()) => ExitCode::SUCCESS,
        Err(words) => {
            eprintln!("{words}");
            ExitCode::FAILURE
        }
    }
}

fn compare(test: &TextTest) -> Result<(), String> {
    let tally = text_test::compare(test)?;
    for (words, count) in &tally {
        println!("{count:>9}  {words}");
    }
    let cases: u64 = tally.iter().map(|(_, count)| count).sum();
    println!("{cases} cases, no difference");
    Ok(())
}
