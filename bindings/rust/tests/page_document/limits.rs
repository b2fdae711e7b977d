//! The document's limits: a page at each is accepted, a page one above it is refused as the table says.

use crate::answer;
use crate::document::{number, rows};
use sandzguli::page::{AtModifier, BinModifier, Code, Function, LabelModifier, Literal, Matcher};
use sandzguli::page::{Page, Record, Variadic};
use sandzguli::Kind;

fn up() -> Record {
    Record::selector("up", [])
}

fn letters(count: usize) -> String {
    "a".repeat(count)
}

/// So many bytes, but half as many characters.
fn accents(count: usize) -> String {
    "é".repeat(count / 2) + &letters(count % 2)
}

/// A matcher with a pattern of so many letters.
fn pattern(count: usize) -> Matcher {
    Matcher::re("a", letters(count), false)
}

/// A record in so many parens.
fn in_parens(record: Record, parens: usize) -> Page {
    let mut records = vec![record];
    records.resize(1 + parens, Record::Paren);
    Page::from(records)
}

/// A selector near the limit of a page, in parens up to so many bytes.
fn of_bytes(count: usize) -> Page {
    let matcher = Matcher::equal(letters(250), letters(250));
    let long = Record::selector("up", vec![matcher; 16]);
    let length = Page::from([long.clone()]).to_bytes().len();
    in_parens(long, count - length)
}

/// A call with so many numbers, of a function that declares so many.
fn call(kinds: usize, variadic: Variadic, arguments: usize) -> Page {
    let function = Function::fixed("f", vec![Kind::Scalar; kinds], Kind::Scalar);
    let mut records = vec![Record::whole(1); arguments];
    records.push(Record::call(function.variadic(variadic), arguments));
    Page::from(records)
}

/// Pages with a list of so many elements, so many arguments, or such an extra.
fn of_elements(count: usize) -> Vec<Page> {
    let by = LabelModifier::by(vec!["a"; count]);
    let matchers = vec![Matcher::equal("a", "b"); count];
    vec![
        Page::from([Record::selector("up", matchers)]),
        Page::from([up(), Record::aggregate(Code::Sum, by, 1)]),
        call(count, Variadic::Unlimited, count - 1),
        call(1, Variadic::Unlimited, count),
        call(1, Variadic::UpTo(count as u64), 1),
    ]
}

/// Pages with such a fraction: a number of either sign, and both fills.
fn of_fraction(digits: u64, places: u64) -> Vec<Page> {
    let [plus, minus] = [false, true].map(|minus| Literal::Fraction {
        minus,
        digits,
        places,
    });
    let filled = |left_fill, right_fill| {
        let modifier = BinModifier {
            left_fill,
            right_fill,
            ..BinModifier::default()
        };
        Page::from([up(), up(), Record::binary_with(Code::Add, modifier)])
    };
    vec![
        Page::from([Record::Number(plus)]),
        Page::from([Record::Number(minus)]),
        filled(Some(plus), None),
        filled(None, Some(minus)),
    ]
}

/// Pages that have just so many of what a row of the table names.
fn pages_of(what: &str, many: u64) -> Vec<Page> {
    let count = many as usize;
    let name = || Function::fixed(letters(count), [], Kind::Scalar);
    match what {
        "bytes of a page" => vec![of_bytes(count)],
        "records" => vec![in_parens(up(), count - 1)],
        "bytes of a text" => vec![
            Page::from([Record::string(letters(count))]),
            Page::from([Record::string(accents(count))]),
            Page::from([Record::selector(letters(count), [])]),
            Page::from([Record::selector("up", [pattern(count)])]),
        ],
        "bytes of a function name" => vec![Page::from([Record::call(name(), 0)])],
        "matchers, labels, kinds or arguments; number of extra 2" => of_elements(count),
        "milliseconds of `@`" => vec![
            Page::from([up(), Record::At(AtModifier::After(many))]),
            Page::from([up(), Record::At(AtModifier::Before(many))]),
        ],
        "digits of a fraction" => of_fraction(many, 1),
        "places of a fraction" => of_fraction(1, many),
        "any number" => vec![
            Page::from([Record::whole(many)]),
            Page::from([up(), Record::Range(many)]),
        ],
        _ => panic!("no page for {what}"),
    }
}

#[test]
fn limits_are_the_librarys() {
    for [what, highest, above] in rows(["What", "Highest", "Above it"]) {
        let highest = number(highest);
        for page in pages_of(what, highest) {
            assert!(sandzguli::check(&page.to_bytes()).is_ok(), "{what}");
        }
        for page in pages_of(what, highest + 1) {
            // Where the table has no record, it is the last one of these pages.
            let refused = match above.contains(" at ") {
                true => above.into(),
                false => format!("{above} at {}", page.records.len() - 1),
            };
            assert_eq!(answer(&page.to_bytes()), refused, "{what}");
        }
    }
}
