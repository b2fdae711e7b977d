//! The kept lists are those that the oracle writes, and they reach every class by themselves.

use oracle::answer::{self, Answer};
use oracle::coverage::Coverage;
use oracle::generate::{
    self, counted_bytes, fractions, ill_formed, patterns, times, well_formed, Made,
};
use oracle::generations::Generations;
use oracle::{chosen, functions, hex, kept};
use std::collections::HashSet;

#[test]
fn the_lists_are_the_oracles() {
    let made = kept::lists().expect("the Rust is foreseen");
    for (place, entries) in kept::PLACES.iter().zip(&made) {
        for (path, bytes) in kept::files(place, entries) {
            let kept = std::fs::read(&path).expect("the list and its words are there");
            assert!(kept == bytes, "{path}: write it again: oracle keep");
            assert!(path == place.list || kept.len() == 8 * entries.len());
        }
    }
}

/// The number with a comma behind its thousands.
fn grouped(number: usize) -> String {
    match number / 1000 {
        0 => number.to_string(),
        thousands => format!("{thousands},{:03}", number % 1000),
    }
}

/// What KEPT.md counts of the lists and of the answers of both generations.
#[test]
fn the_document_has_the_lists_counts() {
    let document = include_str!("../KEPT.md").replace('\n', " ");
    let lists = kept::lists().expect("the Rust is foreseen");
    for entries in &lists {
        let (pages, accepted) = kept::counts(entries);
        let [pages, accepted] = [pages, accepted].map(grouped);
        let words = format!("{pages} pages, of which check accepts {accepted}");
        assert!(document.contains(&words), "{words}");
    }
    let count = |is_meant: &dyn Fn(&Answer) -> bool| {
        lists.each_ref().map(|entries| {
            let meant = entries.iter().filter(|(_, answer)| is_meant(answer));
            grouped(meant.count())
        })
    };
    let [neither, older, newer, both] =
        Generations::ALL.map(|answer| count(&|found: &Answer| found.generations() == answer));
    let unlike = count(&|answer: &Answer| answer.older != answer.newer);
    let limited = count(&|answer: &Answer| answer.operators != answer.outcome);
    for words in [
        format!(
            "with 42, as on {} pages and {} of the later",
            limited[0], limited[1]
        ),
        format!(
            "the two are different on {} pages and {} of the later",
            unlike[0], unlike[1]
        ),
        format!("| 0 neither | {} | {} |", neither[0], neither[1]),
        format!("| 1 the older | {} | {} |", older[0], older[1]),
        format!("| 2 the newer | {} | {} |", newer[0], newer[1]),
        format!("| 3 both | {} | {} |", both[0], both[1]),
    ] {
        assert!(document.contains(&words), "{words}");
    }
}

#[test]
fn the_signatures_are_the_oracles() {
    let kept = std::fs::read(kept::SIGNATURES_PATH).expect("the names are there");
    assert!(kept == kept::signatures(), "write it again: oracle keep");
    let names: HashSet<_> = kept::names().into_iter().collect();
    assert!(functions::names().all(|name| names.contains(name.as_bytes())));
    let unknown = names.len() - functions::names().count();
    assert!(unknown > 1000, "{unknown}");
}

#[test]
fn the_lists_reach_every_class() {
    let mut coverage = Coverage::default();
    let entries = kept::entries().expect("the Rust is foreseen");
    assert!(entries.len() >= 2000);
    for (page, _) in &entries {
        let worked = answer::work(page).expect("the Rust is foreseen");
        coverage.observe(&worked, &answer::of_worked(&worked));
    }
    assert_eq!(coverage.missing(), Vec::<&str>::new());
}

/// So many pages at least are on the lists, and so among those that fuzzing starts from.
fn assert_kept(made: impl Iterator<Item = Made>, least: usize) {
    assert_pages_kept(made.map(|made| made.page), least);
}

fn assert_pages_kept(pages: impl Iterator<Item = Vec<u8>>, least: usize) {
    let entries = kept::entries().expect("the Rust is foreseen");
    let kept: HashSet<_> = entries.into_iter().map(|(page, _)| page).collect();
    let pages: Vec<_> = pages.collect();
    assert!(pages.len() > least, "{} pages", pages.len());
    for page in &pages {
        assert!(kept.contains(page), "{}", hex::text(page));
    }
}

/// Towns, whole and ill-formed.
#[test]
fn the_list_has_the_towns() {
    let made = well_formed::fixed()
        .chain(counted_bytes::fixed())
        .chain(ill_formed::fixed());
    assert_kept(made, 500);
}

/// Fractions, and what is none.
#[test]
fn the_list_has_the_fractions() {
    assert_kept(fractions::fixed(), 1000);
}

/// Patterns with right and wrong flags, and such as are believed.
#[test]
fn the_list_has_the_patterns() {
    assert_kept(patterns::fixed(), 800);
    let chosen = chosen::outside().map(|row| row.bytes());
    assert_pages_kept(chosen, 40);
}

/// @ and offset in either order.
#[test]
fn the_list_has_the_times() {
    assert_kept(times::fixed(), 300);
}

/// Calls of the function table, with its signatures and with others, and of names that it lacks.
#[test]
fn the_list_has_the_functions() {
    let pages = generate::functions::fixed().map(|made| made.page);
    assert_pages_kept(pages, 700);
    // But for 255 nested calls, whose split text is too long for the list.
    let is_short = |page: &Vec<u8>| page.len() < 1000;
    let chosen = chosen::of_functions().iter().map(|row| row.bytes());
    assert_pages_kept(chosen.filter(is_short), 30);
}

/// limitk and limit_ratio with parameters and operands of every kind, and beside other faults.
#[test]
fn the_list_has_the_limits() {
    let pages = generate::operators::fixed().map(|made| made.page);
    assert_pages_kept(pages, 500);
    let chosen = chosen::of_operators().iter().map(|row| row.bytes());
    assert_pages_kept(chosen, 30);
}

/// Calls that two server generations judge differently, and the functions that they have and lack.
#[test]
fn the_lists_have_the_generations() {
    let pages = generate::generations::fixed().map(|judged| judged.page);
    assert_pages_kept(pages, 700);
    let chosen = chosen::of_generations().iter().map(|row| row.bytes());
    assert_pages_kept(chosen, 60);
}
