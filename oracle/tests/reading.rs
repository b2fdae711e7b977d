//! The comparison of readings passes a program that prints the oracle's lines, and finds one wrong digit. A program that is given no stream of
//! pages must say what it wants.

use oracle::reading::{compare, compare_faults};
use std::process::Command;

const ORACLE: &str = env!("CARGO_BIN_EXE_oracle");

/// The oracle's own lines, through a filter; the filter may end first, which the oracle would complain of.
fn filtered(filter: &str) -> Command {
    let mut command = Command::new("sh");
    command.args(["-c", &format!("\"$0\" show 2>/dev/null | {filter}"), ORACLE]);
    command
}

#[test]
fn the_same_lines_pass() {
    let tally = compare(1, 5, &mut filtered("cat")).expect("no difference");
    assert!(tally.pages > 60_000 && tally.lines > tally.pages);
}

#[test]
fn differences_are_found() {
    let wrong_digit = compare(1, 5, &mut filtered("sed '5000s/1/2/'"));
    let words = wrong_digit.expect_err("line 5,000 has another digit");
    assert!(words.starts_with("page: "), "{words}");
    for filter in ["sed 5000d", "head -n 70000", "sed '$p'"] {
        assert!(compare(1, 5, &mut filtered(filter)).is_err(), "{filter}");
    }
}

/// The oracle's own lines and words, in a shell command.
fn within(command: &str) -> Command {
    let mut shell = Command::new("sh");
    shell.args(["-c", command, ORACLE]);
    shell
}

#[test]
fn the_sentence_passes() {
    compare_faults(Command::new(ORACLE).arg("show")).expect("the sentence, and no line");
}

#[test]
fn silence_and_needless_words_are_found() {
    for command in [
        "\"$0\" show 2>/dev/null",
        "\"$0\" show; echo wanted >&2",
        "\"$0\" show; echo end 0",
    ] {
        let words = compare_faults(&mut within(command)).expect_err(command);
        assert!(words.starts_with("input: "), "{words}");
    }
}
