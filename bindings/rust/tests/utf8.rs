//! Strings, labels and matchers hold what the standard library takes for UTF-8, and nothing else, in every place and
//! beside any count of other bytes; metric and function names keep their rule.

use sandzguli::page::{BinModifier, Cardinality, Code, Function, LabelModifier, Matcher};
use sandzguli::page::{Page, Record};
use sandzguli::{Kind, Refusal, Rule};
use std::str::from_utf8;

/// Characters of one to four bytes: the first and the last of each length, those beside the surrogates, and others.
const CHARACTERS: [&str; 15] = [
    "\0",
    "\u{7f}",
    "\u{80}",
    "é",
    "\u{7ff}",
    "\u{800}",
    "€",
    "\u{2028}",
    "\u{d7ff}",
    "\u{e000}",
    "\u{feff}",
    "\u{ffff}",
    "\u{10000}",
    "𝄞",
    "\u{10ffff}",
];

fn up() -> Record {
    Record::selector("up", [])
}

fn matched(matcher: Matcher) -> Page {
    Page::from([Record::selector("up", [matcher])])
}

fn summed(grouping: LabelModifier) -> Page {
    Page::from([up(), Record::aggregate(Code::Sum, grouping, 1)])
}

fn joined(matching: LabelModifier, cardinality: Cardinality) -> Page {
    let modifier = BinModifier {
        matching,
        cardinality,
        ..BinModifier::default()
    };
    Page::from([up(), up(), Record::binary_with(Code::Mul, modifier)])
}

/// A page for each place that takes any text, with this one in it, in the last record.
fn pages_with(text: &str) -> Vec<Page> {
    let one = Cardinality::OneToOne;
    let on_x = || LabelModifier::on(["x"]);
    vec![
        Page::from([Record::string(text)]),
        matched(Matcher::equal(text, "x")),
        matched(Matcher::not_equal("x", text)),
        matched(Matcher::re(text, "x", false)),
        matched(Matcher::not_re("x", text, false)),
        summed(LabelModifier::by(["x", text])),
        summed(LabelModifier::without([text])),
        joined(LabelModifier::on([text]), one.clone()),
        joined(LabelModifier::ignoring(["x", text]), one),
        joined(on_x(), Cardinality::group_left([text])),
        joined(on_x(), Cardinality::group_right(["y", text])),
    ]
}

/// What is said of a text that stands in the last of so many records.
fn said(text: &[u8], records: usize) -> Result<(), Refusal> {
    let refused = Refusal::new(Rule::BadText, records - 1);
    from_utf8(text).map(drop).map_err(|_| refused)
}

/// The library and the binding's own reader judge a page so.
fn judged(page: &[u8], expected: Result<(), Refusal>) {
    assert_eq!(sandzguli::check(page).map(drop), expected, "{page:x?}");
    assert_eq!(Page::read(page).map(drop), expected, "{page:x?}");
}

/// The page of a string of these bytes, of which there are fewer than 128.
fn string(text: &[u8]) -> Vec<u8> {
    [&[1, text.len() as u8], text].concat()
}

/// Every first byte, with the bytes beside which a row of the grammar ends after it.
fn begun() -> impl Iterator<Item = [u8; 2]> {
    let second = [0, 0x7f, 0x80, 0x8f, 0x90, 0x9f, 0xa0, 0xbf, 0xc0, 0xff];
    (0..=0xff).flat_map(move |first| second.map(|second| [first, second]))
}

#[test]
fn strings_are_taken_as_the_standard_library_takes_them() {
    let tails = [0x7f, 0x80, 0xbf, 0xc0];
    for [first, second] in begun() {
        let mut texts = vec![vec![first], vec![first, second]];
        for third in tails {
            texts.push(vec![first, second, third]);
            texts.extend(tails.map(|fourth| vec![first, second, third, fourth]));
        }
        for text in texts {
            judged(&string(&text), said(&text, 1));
        }
    }
}

/// Words of eight bytes are looked at first: a character, whole or damaged, before, across and after their bounds.
#[test]
fn characters_are_found_beside_other_bytes() {
    for character in CHARACTERS.map(str::as_bytes) {
        let mut damaged = character.to_vec();
        *damaged.last_mut().expect("a byte") ^= 0x80;
        let cut = &character[..character.len() - 1];
        for middle in [character, &damaged, cut] {
            for (before, after) in (0..18).flat_map(|n| [(n, 0), (n, 1), (n, 7), (n, 17)]) {
                let text = [&vec![b'a'; before], middle, &vec![b'b'; after]].concat();
                judged(&string(&text), said(&text, 1));
            }
        }
    }
}

#[test]
fn every_place_takes_utf8_and_nothing_else() {
    let damaged: [&[u8]; 5] = [b"\xa9", b"\xc3", b"\xc0\x80", b"\xed\xa0\x80", b"Z\xfcrich"];
    for text in CHARACTERS.map(str::as_bytes).into_iter().chain(damaged) {
        let stand_in = "?".repeat(text.len());
        for page in pages_with(&stand_in) {
            let mut bytes = page.to_bytes();
            let is_stand_in = |part: &[u8]| part == stand_in.as_bytes();
            let mut parts = bytes.windows(text.len());
            let start = parts.position(is_stand_in).expect("the text");
            bytes[start..start + text.len()].copy_from_slice(text);
            judged(&bytes, said(text, page.records.len()));
        }
    }
}

#[test]
fn pages_are_written_read_and_printed_with_their_characters() {
    for character in CHARACTERS {
        for page in pages_with(character) {
            let bytes = page.to_bytes();
            assert_eq!(Page::read(&bytes), Ok(page));
            assert_eq!(sandzguli::copy(&bytes).as_ref(), Ok(&bytes));
            let text = sandzguli::canonical(&bytes).expect("a page");
            assert!(text.contains(&format!("\"{character}\"")), "{text}");
            assert_eq!(sandzguli::split(&bytes).as_ref(), Ok(&text));
            let mut out = vec![0xff; text.len()];
            assert_eq!(sandzguli::canonical_str(&bytes, &mut out), Ok(&*text));
            assert_eq!(sandzguli::split_str(&bytes, &mut out), Ok(&*text));
        }
    }
}

#[test]
fn a_buffer_that_ends_inside_a_character_is_too_short() {
    for page in pages_with("€").iter().map(Page::to_bytes) {
        let text = sandzguli::canonical(&page).expect("a page");
        for room in 0..text.len() {
            let mut out = vec![0xff; room];
            for print in [sandzguli::canonical_str, sandzguli::split_str] {
                let refusal = print(&page, &mut out).unwrap_err();
                assert_eq!(refusal.rule, Rule::OutputTooShort);
                assert!(out.iter().all(|byte| *byte == 0xff));
            }
        }
    }
}

#[test]
fn a_text_is_not_completed_by_what_follows_it() {
    for character in CHARACTERS.into_iter().filter(|text| text.len() > 1) {
        let mut page = string(character.as_bytes());
        page[1] -= 1;
        judged(&page, Err(Refusal::new(Rule::BadText, 0)));
    }
}

#[test]
fn names_are_ascii() {
    let refused = Err(Refusal::new(Rule::BadText, 0));
    for character in CHARACTERS {
        for name in [
            character.into(),
            format!("a{character}"),
            format!("a{character}b"),
        ] {
            let metric = Record::selector(&name, []);
            judged(&Page::from([metric]).to_bytes(), refused);
            let function = Function::fixed(&name, [], Kind::Scalar);
            judged(&Page::from([Record::call(function, 0)]).to_bytes(), refused);
        }
    }
}

#[test]
fn the_label_of_19_has_its_characters() {
    for character in CHARACTERS.into_iter().chain(["", "Zürich"]) {
        let on = LabelModifier::on(["x", character]);
        let page = joined(on, Cardinality::group_left(["y", character])).to_bytes();
        assert_eq!(sandzguli::joint_label(&page), Some(character));
    }
}
