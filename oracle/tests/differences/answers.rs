//! In every row the column of the port has the oracle's answer to the row's page; the first section is true of the
//! Rust.

use crate::document::{quoted, row, rows};
use crate::search::worked;
use oracle::answer::{self, Domain, Outcome};
use oracle::chosen::spelled;
use oracle::page::record::{Operation, Record};
use oracle::{hex, tree};
use promql_parser::label::Matcher;
use promql_parser::parser::token::T_EQL_REGEX;
use promql_parser::parser::Expr;
use std::collections::HashSet;

/// A text of the document, in which `<01>` stands for the byte 1, and `<c2ad>` for the character of these bytes.
fn told(text: &str) -> String {
    let mut pieces = text.split('<');
    let mut told = pieces.next().unwrap_or_default().to_string();
    for piece in pieces {
        let bytes = piece
            .split_once('>')
            .filter(|(digits, _)| is_hexadecimal(digits));
        match bytes {
            Some((digits, after)) => {
                told += &String::from_utf8(hex::bytes(digits)).expect("characters");
                told += after;
            }
            None => told = told + "<" + piece,
        }
    }
    told
}

/// Whole bytes in small digits.
fn is_hexadecimal(text: &str) -> bool {
    let is_digit = |digit: u8| matches!(digit, b'0'..=b'9' | b'a'..=b'f');
    !text.is_empty() && text.len().is_multiple_of(2) && text.bytes().all(is_digit)
}

pub fn is_told(page: &[u8], cell: &str) -> bool {
    let answer = answer::answer(page).expect("the Rust is foreseen");
    if let Outcome::Refused { number, record } = answer.outcome {
        return cell.starts_with(&format!("refused {number} at {record}"));
    }
    let cell = cell.trim_start_matches("accepts, ");
    let text = quoted(cell).expect("a text between backquotes");
    if cell.starts_with("splits `") {
        return spelled(&told(text)) == answer.split;
    }
    cell.starts_with("prints `") && told(text).as_bytes() == answer.canonical
}

#[test]
fn bytes_in_hexadecimal_are_characters() {
    assert_eq!(told("\"<01>\" <c2ad><e280a8>"), "\"\u{1}\" \u{ad}\u{2028}");
    assert_eq!(
        told("1 < bool 2 (?<n>a) <c2a <>"),
        "1 < bool 2 (?<n>a) <c2a <>"
    );
}

/// The characters of C7 and those of the rows beside `a b`: no row of the document is left to ASCII by mistake.
#[test]
fn rows_beyond_ascii_are_there() {
    let rows = rows();
    let beyond = |number: &str| {
        let of_number = rows.iter().filter(|row| row.number == number);
        of_number.filter(|row| !row.page.is_ascii()).count()
    };
    let counts = ["A11", "A12", "C7", "C12"].map(beyond);
    assert_eq!(counts, [1, 1, 3, 1]);
}

/// The rows that need a fraction have one.
#[test]
fn rows_with_fractions_are_there() {
    let rows = rows();
    let has_fraction = |page: &[u8]| {
        let records = worked(page).records;
        let mut numbers = records.iter().flat_map(Record::numbers);
        numbers.any(|(_, number)| number.fraction().is_some())
    };
    let with_fraction = |number: &str| {
        let of_number = rows.iter().filter(|row| row.number == number);
        of_number.filter(|row| has_fraction(&row.page)).count()
    };
    assert_eq!(["9", "A3", "C4"].map(with_fraction), [1, 1, 2]);
}

#[test]
fn every_row_has_the_oracles_answer() {
    let rows = rows();
    for row in &rows {
        assert!(is_told(&row.page, row.port), "{}: {}", row.number, row.port);
    }
    assert!(rows.len() > 80, "{} rows", rows.len());
}

#[test]
fn row_1_the_rust_panics() {
    let row = row("1");
    let message = worked(&row.page).message.expect("the Rust's words");
    assert!(row.rust.contains(&format!("`{message}`")), "{message}");
}

#[test]
fn row_2_the_rust_names_either_label() {
    let page = row("2").page;
    let messages: HashSet<_> = (0..200).map(|_| worked(&page).message).collect();
    assert_eq!(messages.len(), 2, "{messages:?}");
    let part = worked(&page).label.expect("a label");
    assert_eq!((part.start, part.length, page[part.start]), (16, 1, b'a'));
}

/// The page with every flag true to its pattern; nothing if a pattern is not taken.
pub fn with_true_flags(records: &[Record]) -> Option<Vec<u8>> {
    let mut records = records.to_vec();
    for record in &mut records {
        let Record::Selector { matchers, .. } = record else {
            continue;
        };
        for matcher in matchers {
            let truth = tree::matches_empty(&matcher.value.text);
            match &mut matcher.operation {
                Operation::Regex(flag) | Operation::NotRegex(flag) => *flag = truth?,
                Operation::Equal | Operation::NotEqual => {}
            }
        }
    }
    Some(oracle::page::write::page(&records))
}

#[test]
fn row_4b_the_rust_makes_no_matcher() {
    let made = Matcher::new_matcher(T_EQL_REGEX, String::new(), "(".into());
    let message = made.expect_err("the pattern is not taken");
    assert!(
        row("4b").rust.contains(&format!("`{message}`")),
        "{message}"
    );
    for row in rows().iter().filter(|row| row.number == "A21") {
        assert_eq!(worked(&row.page).domain, Domain::PatternNotTaken);
    }
}

#[test]
fn row_4c_the_rust_takes_the_braces_as_text() {
    let row = row("4c");
    assert_eq!(worked(&row.page).domain, Domain::Inside);
    assert!(is_told(&row.page, row.rust));
}

/// What a float is, to its last digit.
fn exactly(value: f64) -> String {
    let digits = format!("{value:.1100}");
    digits.trim_end_matches('0').to_string()
}

#[test]
fn row_9_the_rust_holds_the_nearest_float() {
    let row = row("9");
    let worked = worked(&row.page);
    let Some((Expr::NumberLiteral(held), _)) = &worked.checked else {
        panic!("a number");
    };
    let told = format!("holds `{}`, prints `{held}`", exactly(held.val));
    assert_eq!(row.rust, told);
    assert_eq!(row.port, format!("prints `{held}`"));
}

#[test]
fn entry_3_codes_have_document_01s_order() {
    let words = "+ / == >= > and or < <= unless % * != ^ - atan2 avg bottomk count count_values group max min quantile stddev \
                 stdvar sum topk limitk limit_ratio";
    for (index, word) in words.split_whitespace().enumerate() {
        let code = index + 1;
        let (notation, text) = match code {
            1..=16 => (
                format!("(02016100)*2; 09{code:02x}00"),
                format!("a {word} a"),
            ),
            20 => ("0100 02016100 0a140002".into(), format!("{word}(\"\", a)")),
            18 | 24 | 28.. => (
                format!("0002 02016100 0a{code:02x}0002"),
                format!("{word}(NaN, a)"),
            ),
            _ => (format!("02016100 0a{code:02x}0001"), format!("{word}(a)")),
        };
        let answer = answer::answer(&hex::bytes(&notation)).expect("the Rust is foreseen");
        assert_eq!(String::from_utf8_lossy(&answer.canonical), text);
    }
}
