//! The comparison passes a library that answers by the oracle, and finds every planted fault.

use crate::standin::{self, flags, fraction_texts, fractions, straying, texts};
use compare::functions;
use compare::library::Library;
use compare::patterns::{self, Sizes};
use compare::run;
use oracle::generate;
use std::env;
use std::process::{Command, Output};

/// Names the straying library that this program is started again with.
const STRAYS: &str = "STRAYS";

fn compared(library: Library) -> Result<run::Tally, String> {
    run::seeds(library, 1..=4, 2)
}

#[test]
fn the_oracle_agrees_with_itself() {
    let tally = compared(standin::whole()).expect("no difference");
    assert!(tally.coverage.pages > 600);
    assert!(tally.calls > 10 * tally.coverage.pages);
}

/// The difference names what was blamed, and the page.
fn assert_found(words: &str, blamed: &str, compared: Result<run::Tally, String>) {
    let found = compared.err();
    let difference = found.unwrap_or_else(|| panic!("not found: {words}"));
    assert!(difference.contains(blamed), "{words}: {difference}");
    assert!(difference.contains("\npage: "), "{words}: {difference}");
}

#[test]
fn planted_faults_are_found() {
    for (words, blamed, library) in standin::faulty().into_iter().chain(texts::faulty()) {
        assert_found(words, blamed, compared(library));
    }
}

/// Wrong fractions are found by the fixed pages with fractions alone.
#[test]
fn planted_fractions_are_found() {
    let compared = |library| {
        let pages = generate::fractions::fixed().map(|made| made.page);
        run::pages(library, pages)
    };
    compared(standin::whole()).expect("no difference");
    for (words, blamed, library) in fractions::faulty() {
        assert_found(&words, blamed, compared(library));
    }
    for (words, library) in fraction_texts::faulty() {
        assert_found(words, "canonical,", compared(library));
    }
}

/// Wrong flags are found by the fixed pages with patterns alone.
#[test]
fn planted_flags_are_found() {
    let compared = |library| {
        let pages = generate::patterns::fixed().map(|made| made.page);
        run::pages(library, pages)
    };
    compared(standin::whole()).expect("no difference");
    compared(flags::sound()).expect("no difference");
    for (words, library) in flags::faulty() {
        assert_found(words, "check,", compared(library));
    }
}

/// Starts this program again, with the one test that runs a straying library.
fn started_with(library: &str) -> Output {
    Command::new(env::current_exe().expect("this program has a path"))
        .args(["--exact", "planted::a_straying_library_runs", "--nocapture"])
        .env(STRAYS, library)
        .output()
        .expect("this program starts")
}

#[test]
fn a_straying_library_runs() {
    if let Ok(library) = env::var(STRAYS) {
        let library = straying::library(&library);
        let _ = compared(library);
        let sizes = Sizes {
            signs: 2,
            signs_in_pages: 0,
            random: 0,
        };
        let _ = patterns::compare(library, sizes);
        let _ = functions::compare(library, 0);
    }
}

#[test]
fn straying_is_stopped_and_its_page_named() {
    for library in straying::ALL {
        let output = started_with(library);
        let words = String::from_utf8_lossy(&output.stderr);
        assert!(
            words.contains("a call faults\npage: "),
            "{library}: {words}"
        );
        assert!(!output.status.success(), "{library}");
    }
}
