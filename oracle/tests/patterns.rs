//! Patterns (document 02, No. 7): two ways of telling which are covered agree, and every covered one is taken by the
//! Rust's regex.

use oracle::covered;
use oracle::generate::damaged;
use oracle::generate::patterns::{full, near_misses::near_miss, spelling};
use oracle::random::Random;
use oracle::tree;
use oracle::uncovered::{is_foreign, Found, Uncovered};

const SIGNS: &[u8; 8] = b"a.|()*+?";

/// Both ways agree, and the Rust's regex takes what is covered; whether it is.
fn is_covered(pattern: &str) -> bool {
    let is_covered = covered::is_covered(pattern);
    let found = Uncovered::find(pattern.as_bytes());
    assert_eq!(is_covered, found.is_none(), "{pattern:?}: {found:?}");
    if is_covered {
        assert!(tree::matches_empty(pattern).is_some(), "{pattern:?}");
    }
    is_covered
}

/// The pattern of so many signs with this number.
fn numbered(length: usize, number: usize) -> String {
    let signs = (0..length).map(|place| SIGNS[number >> (3 * place) & 7]);
    signs.map(char::from).collect()
}

/// The counts are the request's.
#[test]
fn short_patterns_are_told_apart_alike() {
    let (mut patterns, mut covered) = (0, 0);
    for length in 0..=6 {
        for number in 0..1 << (3 * length) {
            patterns += 1;
            covered += usize::from(is_covered(&numbered(length, number)));
        }
    }
    assert_eq!((patterns, covered), (299_593, 12_795));
}

#[test]
fn patterns_of_every_character_are_told_apart_alike() {
    for character in ('\0'..='\u{ff}').chain(['\u{663}', '\u{ff21}', '北', '😀']) {
        let is_single = character.is_ascii_alphanumeric() || "_-.|".contains(character);
        assert_eq!(is_covered(&character.to_string()), is_single);
        assert_eq!(
            is_covered(&format!("a{character}*")),
            is_single && character != '|'
        );
    }
}

#[test]
fn random_patterns_are_told_apart_alike() {
    let random = &mut Random::new(11);
    let mut counts = [0; 2];
    for round in 0..30_000 {
        let most = if round % 50 == 0 { 255 } else { 30 };
        let pattern = spelling::covered(random, most);
        assert!(pattern.len() <= most && is_covered(&pattern), "{pattern}");
        let mut bytes = damaged(random, pattern.as_bytes());
        bytes.truncate(255);
        if let Ok(damaged) = String::from_utf8(bytes) {
            counts[usize::from(is_covered(&damaged))] += 1;
        }
        let length = random.between(7, 40);
        let signs: String = (0..length)
            .map(|_| char::from(*random.pick(SIGNS)))
            .collect();
        counts[usize::from(is_covered(&signs))] += 1;
    }
    assert!(counts.iter().all(|count| *count > 1_000), "{counts:?}");
}

/// Nests of 255 bytes too: the request says that the regex takes the deepest.
#[test]
fn full_patterns_are_told_apart_alike() {
    let covered = full::all().filter(|(_, pattern)| is_covered(pattern));
    let covered = covered.count();
    assert!(full::all().all(|(_, pattern)| pattern.len() > 250 && pattern.len() <= 255));
    assert!(covered > 25 && full::all().count() > covered + 12);
}

#[test]
fn near_misses_are_made_as_asked() {
    let random = &mut Random::new(12);
    for how in Uncovered::ALL {
        for _ in 0..500 {
            let pattern = near_miss(random, how, 20);
            let found = Uncovered::find(pattern.as_bytes()).map(|found| found.how);
            assert_eq!((found, pattern.len() <= 20), (Some(how), true), "{pattern}");
            assert!(!is_covered(&pattern));
        }
    }
}

#[test]
fn faults_are_told_apart() {
    use Uncovered::*;
    for (pattern, how, place) in [
        ("a**", RepeatTwice, 2),
        ("(a)*+", RepeatTwice, 4),
        ("a+?b:", RepeatTwice, 2),
        ("*a", RepeatOfNothing, 0),
        ("(*)", RepeatOfNothing, 1),
        ("a|?", RepeatOfNothing, 2),
        ("(?:a)", RepeatOfNothing, 1),
        ("(a", Unclosed, 2),
        ("((a)|b", Unclosed, 6),
        ("a)", Unopened, 1),
        (")(", Unopened, 0),
        ("a)|(b", Unopened, 1),
        ("(a:", Foreign, 2),
        ("\\d*", Foreign, 0),
        ("aé", AboveAscii, 1),
    ] {
        let found = Uncovered::find(pattern.as_bytes());
        assert_eq!(found, Some(Found { how, place }), "{pattern}");
    }
    assert_eq!((0..=255).filter(|byte| is_foreign(*byte)).count(), 57);
}

/// "longer than 255 bytes": no matcher can hold it.
#[test]
fn longer_patterns_have_the_word_2() {
    for (pattern, word) in [
        ("", 1),
        ("a*", 1),
        ("a", 0),
        ("a**", 2),
        ("(a", 2),
        ("é", 2),
    ] {
        assert_eq!(covered::word(pattern.as_bytes()), word, "{pattern}");
    }
    assert_eq!(covered::word(&[b'a', 0xff]), 2);
    assert_eq!(
        [254, 255, 256].map(|length| covered::word(&vec![b'a'; length])),
        [0, 0, 2]
    );
    assert_eq!(
        [254, 255, 256].map(|length| covered::word(&vec![b'|'; length])),
        [1, 1, 2]
    );
}
