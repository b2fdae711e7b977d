//! Characters beyond ASCII and ill-formed texts (document 02, No. 10): what is generated has the outcome and the fault
//! that it was made for, and the sentences of the request are true of the oracle's reading.

use oracle::answer::{self, Outcome};
use oracle::generate::carriers::Page;
use oracle::generate::{counted_bytes, ill_formed, well_formed, Made};
use oracle::hex;
use oracle::ill_formed::{completes, IllFormed};
use oracle::page::text_kind::TextKind;
use oracle::random::Random;

fn outcome(page: &[u8]) -> Outcome {
    answer::answer(page).expect("the Rust is foreseen").outcome
}

fn assert_made(made: &Made) {
    let page = &made.page;
    assert_eq!(outcome(page), made.expected, "{}", hex::text(page));
}

#[test]
fn generated_texts_have_their_outcome() {
    let random = &mut Random::new(5);
    for made in well_formed::fixed()
        .chain(counted_bytes::fixed())
        .chain(ill_formed::fixed())
    {
        assert_made(&made);
    }
    for _ in 0..5000 {
        assert_made(&counted_bytes::random(random));
        assert_made(&counted_bytes::random_sum(random, 90));
        assert_made(&ill_formed::random(random));
        assert_made(&well_formed::random_name(random));
    }
}

/// Every scalar value in every kind of text that is no name, and none beyond ASCII in a name.
#[test]
fn every_character_is_taken_but_in_names() {
    for kind in TextKind::ALL {
        let page = Page::of(kind);
        let step = if kind == TextKind::String { 1 } else { 97 };
        for character in (0x80..=0x10ffff).step_by(step).filter_map(char::from_u32) {
            let expected = match kind.is_name() {
                true => page.refused(4),
                false => page.accepted(),
            };
            let made = page.with(character.to_string().as_bytes(), &[]);
            assert_eq!(outcome(&made), expected, "{kind:?} {character:?}");
        }
    }
}

/// The faults of the request's table of pages, by their bytes.
#[test]
fn faults_are_told_apart() {
    for (notation, fault, is_followed) in [
        ("c3", IllFormed::CutByEnd, false),
        ("61 f09f98", IllFormed::CutByEnd, false),
        ("c328", IllFormed::CutByCharacter, true),
        ("e58cc3a9", IllFormed::CutByCharacter, true),
        ("c1bf", IllFormed::OverlongOfTwo, false),
        ("c08061", IllFormed::OverlongOfTwo, true),
        ("e09fbf", IllFormed::OverlongOfThree, false),
        ("f08fbfbf", IllFormed::OverlongOfFour, false),
        ("eda08061", IllFormed::Surrogate, true),
        ("f4908080", IllFormed::AboveBySecond, false),
        ("f5808080", IllFormed::AboveByFirst, false),
        ("ff", IllFormed::AboveByFirst, false),
        ("80", IllFormed::LoneTail, false),
        ("618061", IllFormed::LoneTail, true),
        ("c3a9a9", IllFormed::TailTooMany, false),
    ] {
        let found = IllFormed::find(&hex::bytes(notation)).expect(notation);
        assert_eq!(
            (found.fault, found.is_followed),
            (fault, is_followed),
            "{notation}"
        );
    }
    assert_eq!(IllFormed::find("Zürich 北京 😀".as_bytes()), None);
}

#[test]
fn what_follows_may_complete_a_character() {
    for (text, next, is_completed) in [
        ("c3", "a9", true),
        ("f0", "9f9880", true),
        ("f09f98", "8000", true),
        ("c3", "28", false),
        ("c3", "", false),
        ("ed", "a080", false),
        ("c3a9", "a9", false),
        ("80", "80", false),
    ] {
        let found = completes(&hex::bytes(text), &hex::bytes(next));
        assert_eq!(found, is_completed, "{text} {next}");
    }
}

/// One byte of a text of ASCII or UTF-8 with its highest bit turned: never well-formed, whatever the text.
#[test]
fn a_turned_bit_makes_every_text_ill_formed() {
    let texts = [
        "v", "vv", "é", "vé", "év", "éé", "北京", "é北", "😀v", "v😀é", "Zürich", "Orléans",
    ];
    for text in texts {
        for place in 0..text.len() {
            let mut bytes = text.as_bytes().to_vec();
            bytes[place] ^= 0x80;
            assert!(IllFormed::find(&bytes).is_some(), "{text} {place}");
        }
    }
}
