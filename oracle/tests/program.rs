//! The comparison with the program passes one that writes what the oracle does, and finds a missing line feed. With
//! reads that fail it passes one that says so, and finds one that says nothing.

use oracle::failing;
use oracle::program::compare;

const ORACLE: &str = env!("CARGO_BIN_EXE_oracle");

#[test]
fn the_same_output_passes() {
    let pages = compare(ORACLE, &["write"]).expect("no difference");
    assert!(pages > 3000);
}

#[test]
fn differences_are_found() {
    let trimmed = "printf %s \"$(\"$0\" write)\"";
    let words = compare("sh", &["-c", trimmed, ORACLE]).expect_err("a line feed is missing");
    assert!(words.starts_with("page: "), "{words}");
    let failing = compare("sh", &["-c", "\"$0\" write; exit 3", ORACLE]);
    assert!(failing.is_err_and(|words| words.contains("exit status: 3")));
}

#[test]
fn failed_reads_are_told() {
    let tally = failing::compare(ORACLE, &["write"]).expect("no difference");
    assert!(tally.pages > 5 && tally.unreadable >= tally.pages && tally.runs > tally.unreadable);
}

#[test]
fn failed_reads_that_are_not_told_are_found() {
    let silent = ["-c", "exec \"$0\" write 2>/dev/null", ORACLE];
    let words = failing::compare("sh", &silent).expect_err("nothing is said");
    assert!(words.contains("the program writes \"\""), "{words}");
    // The program is a child of the one whose reads fail.
    let spared = ["-c", "\"$0\" write; exit", ORACLE];
    let words = failing::compare("sh", &spared).expect_err("no read fails");
    assert!(words.ends_with("no failed read was seen"), "{words}");
}
