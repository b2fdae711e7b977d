//! Fractions: their pages are written and read; builder, reader and library have the same ranges; texts, fills and
//! copies go by the value. What is answered to their pages, the kept list has.

#[path = "fractions/pages.rs"]
mod pages;

use pages::{beyond, filled, fraction, within};
use sandzguli::page::{Code, Literal, Page, Record};
use sandzguli::{Refusal, Rule};

/// Powers of ten and what stands beside them, from 0 up to numbers that no page may hold; others that end in 5 or in 0.
fn digits() -> impl Iterator<Item = u64> {
    let powers = (0..=16).map(|exponent| 10u64.pow(exponent));
    let beside = |power: u64| [power - 1, power, power + 1, 95 * power];
    powers.flat_map(beside).chain([123_456_789_012_345])
}

/// Such digits with all places that a fraction may have, and some that none has; plus and minus.
fn all() -> impl Iterator<Item = (bool, u64, u64)> {
    let places = || (0..=17).chain([128, 1 << 53]);
    let pairs = digits().flat_map(move |digits| places().map(move |places| (digits, places)));
    pairs.flat_map(|(digits, places)| [(false, digits, places), (true, digits, places)])
}

/// The ranges in other words: at most 15 decimal digits, the last of which is not 0.
fn is_fraction(digits: u64, places: u64) -> bool {
    let decimal = digits.to_string();
    decimal.len() <= 15 && !decimal.ends_with('0') && places != 0 && places <= 15
}

/// Those that are fractions.
fn fractions() -> impl Iterator<Item = (bool, u64, u64)> {
    all().filter(|(_, digits, places)| is_fraction(*digits, *places))
}

/// Pages with each in the last record, as a number and as either fill, and whether they can be read.
fn held() -> impl Iterator<Item = (Page, Result<(), Refusal>)> {
    all().flat_map(|(minus, digits, places)| {
        let literal = Literal::Fraction {
            minus,
            digits,
            places,
        };
        let pages = [
            Page::from([Record::Number(literal)]),
            filled(Code::Add, Some(literal), None),
            filled(Code::Add, Some(Literal::Nan), Some(literal)),
        ];
        let is_read = is_fraction(digits, places);
        pages.map(|page| {
            let refusal = Refusal::new(Rule::BadField, page.records.len() - 1);
            (page, is_read.then_some(()).ok_or(refusal))
        })
    })
}

/// The float that is nearest to a fraction.
fn nearest(minus: bool, digits: u64, places: u64) -> f64 {
    let sign = if minus { "-" } else { "" };
    let decimal = format!("{sign}{digits}e-{places}");
    decimal.parse().expect("a float")
}

fn printed(page: &Page) -> String {
    sandzguli::canonical(&page.to_bytes()).expect("a query")
}

fn copied(page: &Page) -> Page {
    let copy = sandzguli::copy(&page.to_bytes()).expect("a query");
    Page::read(&copy).expect("a page")
}

#[test]
fn pages_are_written_and_read() {
    for (page, bytes) in within() {
        assert_eq!(page.to_bytes(), bytes);
        assert_eq!(Page::read(&bytes), Ok(page));
    }
}

/// As all that no page may hold.
#[test]
fn what_is_beyond_the_ranges_is_written_and_refused() {
    for (page, bytes) in beyond() {
        assert_eq!(page.to_bytes(), bytes);
        let refusal = Refusal::new(Rule::BadField, page.records.len() - 1);
        assert_eq!(Page::read(&bytes), Err(refusal));
        assert_eq!(sandzguli::check(&bytes), Err(refusal));
    }
}

/// Cut after the digits and before them, digits in a byte too many, the next form; then 0.95 as the time of @.
#[test]
fn other_bytes_are_no_fraction() {
    let pages: [&[u8]; 5] = [
        b"\x00\x05\x5f",
        b"\x00\x05",
        b"\x00\x05\xdf\x00\x02",
        b"\x00\x07\x5f\x02",
        b"\x05\x05\x5f\x02",
    ];
    for page in pages {
        let refusal = Refusal::new(Rule::BadField, 0);
        assert_eq!(Page::read(page), Err(refusal));
        assert_eq!(sandzguli::check(page), Err(refusal));
    }
}

#[test]
fn the_builder_has_the_ranges() {
    for (minus, digits, places) in all() {
        let literal = Literal::Fraction {
            minus,
            digits,
            places,
        };
        let expected = is_fraction(digits, places).then_some(literal);
        assert_eq!(Literal::fraction(minus, digits, places), expected);
    }
}

#[test]
fn the_reader_has_the_ranges() {
    for (page, expected) in held() {
        assert_eq!(Page::read(&page.to_bytes()), expected.map(|()| page));
    }
}

#[test]
fn the_library_has_the_ranges() {
    for (page, expected) in held() {
        let checked = sandzguli::check(&page.to_bytes());
        assert_eq!(checked.map(drop), expected, "{page:?}");
    }
}

#[test]
fn fractions_print_as_their_nearest_float() {
    for (minus, digits, places) in fractions() {
        let number = Record::Number(fraction(minus, digits, places));
        let text = nearest(minus, digits, places).to_string();
        assert_eq!(printed(&Page::from([number])), text);
    }
}

#[test]
fn fills_are_printed_as_one_where_their_values_are_equal() {
    let mut fills = vec![(Literal::Nan, f64::NAN)];
    fills.extend([0u32, 1, 5, 25].map(|whole| (Literal::Whole(whole.into()), whole.into())));
    for (digits, places) in [(5, 1), (5, 2), (25, 1), (25, 2), (1, 15)] {
        let value = |minus| {
            (
                fraction(minus, digits, places),
                nearest(minus, digits, places),
            )
        };
        fills.extend([false, true].map(value));
    }
    for (left_fill, left) in &fills {
        for (right_fill, right) in &fills {
            let text = printed(&filled(Code::Add, Some(*left_fill), Some(*right_fill)));
            let expected = match left == right {
                true => format!("up + fill ({left}) up"),
                false => format!("up + fill_left ({left}) fill_right ({right}) up"),
            };
            assert_eq!(text, expected);
        }
    }
}

#[test]
fn copies_have_the_negated_fraction() {
    for (minus, digits, places) in fractions() {
        let [number, negated] = [minus, !minus].map(|minus| {
            let number = Record::Number(fraction(minus, digits, places));
            Page::from([number])
        });
        let once = number.clone().then(Record::Unary);
        assert_eq!(copied(&once), negated);
        assert_eq!(copied(&once.then(Record::Unary)), number);
        let in_paren = number.then(Record::Paren).then(Record::Unary);
        assert_eq!(copied(&in_paren), in_paren);
    }
}
