//! A run that was stopped goes on where it was, and counts what a run without a stop counts.

use crate::standin;
use compare::library::Library;
use compare::resume::Run;
use oracle::answer;
use std::env;
use std::fs;
use std::path::PathBuf;
use std::sync::atomic::{AtomicU64, Ordering};

/// After so many calls check answers wrongly. Two calls for each page.
static CALLS_LEFT: AtomicU64 = AtomicU64::new(u64::MAX);

extern "C" fn check(page: *const u8, length: usize) -> u64 {
    // SAFETY: the comparison lends so many bytes.
    let page = unsafe { std::slice::from_raw_parts(page, length) };
    let word = answer::answer(page)
        .expect("the Rust is foreseen")
        .outcome
        .word(0);
    let left = CALLS_LEFT.fetch_sub(1, Ordering::Relaxed);
    word + u64::from(left == 0)
}

fn run(last: u64) -> Run {
    Run {
        library: Library {
            check,
            ..standin::whole()
        },
        seeds: 1..=last,
        threads: 2,
        block: 2,
    }
}

fn state(name: &str) -> PathBuf {
    let file = env::temp_dir().join(format!("compare-{name}-{}", std::process::id()));
    let _ = fs::remove_file(&file);
    file
}

/// The calls of three blocks, and what a stop in the third leaves to do.
#[test]
fn a_stopped_run_goes_on() {
    let whole = state("whole");
    let (expected, _) = run(6).resume(&whole).expect("no difference");
    assert!(fs::read_to_string(&whole).is_ok_and(|lines| lines.contains("\n7 ")));

    let stopped = state("stopped");
    CALLS_LEFT.store(2 * expected.coverage.pages - 10, Ordering::Relaxed);
    assert!(run(6).resume(&stopped).is_err());
    assert!(fs::read_to_string(&stopped).is_ok_and(|lines| lines.contains("\n5 ")));

    CALLS_LEFT.store(u64::MAX, Ordering::Relaxed);
    let (resumed, _) = run(6).resume(&stopped).expect("no difference");
    assert_eq!(resumed.calls, expected.calls);
    assert_eq!(resumed.coverage.to_lines(), expected.coverage.to_lines());

    let other = run(8).resume(&stopped);
    assert!(other.is_err_and(|words| words.contains("of other seeds")));
    for file in [whole, stopped] {
        fs::remove_file(file).expect("the state is there");
    }
}
