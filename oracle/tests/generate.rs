//! Generated pages have the outcome that they were made for.

use oracle::answer::{self, Outcome};
use oracle::generate::{self, fault, limits, long_texts, nesting, Made, Scope};
use oracle::hex;
use oracle::page::record::Kind;
use oracle::random::Random;

fn outcome(page: &[u8]) -> Outcome {
    answer::answer(page).expect("the Rust is foreseen").outcome
}

const SCOPES: [Scope; 4] = [Scope::Base, Scope::Utf8, Scope::Fractions, Scope::Patterns];

fn assert_made(made: &Made) {
    let page = &made.page;
    assert_eq!(outcome(page), made.expected, "{}", hex::text(page));
}

#[test]
fn good_pages_pass() {
    let random = &mut Random::new(1);
    for round in 0..6000 {
        let size = match round % 100 {
            0 => 250,
            1..=5 => 40,
            size => 1 + size % 12,
        };
        let (page, kind) = generate::good(random, SCOPES[round / 100 % 4], size);
        let answer = answer::answer(&page).expect("the Rust is foreseen");
        assert_eq!(
            answer.outcome,
            Outcome::Accepted(kind),
            "{}",
            hex::text(&page)
        );
        assert_eq!(answer.records, size, "{}", hex::text(&page));
    }
}

#[test]
fn planted_faults_are_found() {
    let random = &mut Random::new(2);
    for round in 0..600 {
        let scope = SCOPES[round % 4];
        for number in fault::numbers(scope) {
            assert_made(&fault::planted(random, scope, number));
        }
    }
}

#[test]
fn limits_hold() {
    for limit in limits::limits() {
        assert_eq!(outcome(&limit.page), limit.expected, "{}", limit.words);
    }
}

#[test]
fn long_texts_are_refused_by_one_byte() {
    let random = &mut Random::new(4);
    let made = (0..6000).map(|round| long_texts::random(random, SCOPES[round % 4]));
    for text in long_texts::fixed().chain(made) {
        assert_made(&text);
    }
}

#[test]
fn nested_pages_pass() {
    for records in nesting::DEPTHS {
        for (words, page) in nesting::series(records) {
            assert!(
                matches!(outcome(&page), Outcome::Accepted(_)),
                "{words} {records}"
            );
        }
    }
}

#[test]
fn everyday_pages_pass() {
    let random = &mut Random::new(3);
    for records in [5, 40, 250] {
        for _ in 0..20 {
            let page = generate::everyday(random, records);
            let answer = answer::answer(&page).expect("the Rust is foreseen");
            assert_eq!(answer.outcome, Outcome::Accepted(Kind::Vector));
            assert_eq!(answer.records, records);
        }
    }
}
