//! docs/REFUSALS.md tells the truth: every row's page is refused so by the oracle, and is the example that the definitions'
//! table of refusals has.

#[path = "definitions/bytes.rs"]
mod bytes;

use oracle::answer::{self, Outcome};
use oracle::refusal::{self, LIMIT_PARAMETER, UNKNOWN_FUNCTION, UNLIKE_SIGNATURE};
use oracle::{chosen, hex};

const DOCUMENT: &str = include_str!("../../docs/REFUSALS.md");
const DEFINITIONS: &str = include_str!("../../crates/ast/specs/RefusalTable.antt");
const OF_TABLE_DEFINED: &str = include_str!("../../crates/functions/specs/TablePages.antt");
const OF_OPERATORS_DEFINED: &str = include_str!("../../crates/ast/specs/LimitPages.antt");

/// The numbers that document 01's calls do not give: they are of the checks with a table of functions.
const OF_TABLES: [u8; 2] = [UNKNOWN_FUNCTION, UNLIKE_SIGNATURE];

/// A refusal's number, its example and the record at which it is refused.
#[derive(Debug, Clone, PartialEq)]
struct Row {
    number: u8,
    page: Vec<u8>,
    record: usize,
}

/// The numbers whose column of calls has these words.
fn given_by(words: &str) -> Vec<u8> {
    let number = |line: &str| {
        let cells: Vec<_> = line.trim_matches('|').split(" | ").map(str::trim).collect();
        let is_given = cells.last() == Some(&words);
        cells[0].parse().ok().filter(|_| is_given)
    };
    DOCUMENT.lines().filter_map(number).collect()
}

/// The rows of the document's table.
fn told() -> Vec<Row> {
    let row = |line: &str| {
        let cells: Vec<_> = line.trim_matches('|').split(" | ").map(str::trim).collect();
        Some(Row {
            number: cells[0].parse().ok()?,
            page: hex::bytes(cells[4].trim_matches('`').trim_start_matches("no bytes")),
            record: cells[5].parse().expect("a record"),
        })
    };
    DOCUMENT.lines().filter_map(row).collect()
}

/// The rows of the definitions' tables: `row 6 1 (text ++ hex "07")`, and `is_refused 37 1 (hex "..")` of the added
/// checks.
fn defined() -> Vec<Row> {
    let mut rows = rows_of(DEFINITIONS, "∷ ", "row ");
    for added in [OF_TABLE_DEFINED, OF_OPERATORS_DEFINED] {
        rows.extend(rows_of(added, "&& ", "is_refused "));
    }
    rows.sort_by_key(|row| row.number);
    rows
}

/// The lines of a table that begin with a word, behind what joins them.
fn rows_of(definitions: &str, join: &str, word: &str) -> Vec<Row> {
    let row = |line: &str| {
        let words = line.trim().trim_start_matches(join).strip_prefix(word)?;
        let (number, rest) = words.split_once(' ')?;
        let (record, page) = rest.split_once(' ')?;
        Some(Row {
            number: number.parse().ok()?,
            page: bytes::list(page, named),
            record: record.parse().ok()?,
        })
    };
    definitions.lines().filter_map(row).collect()
}

/// A list that the definitions give a name: `up = hex ".."`.
fn named(name: &str) -> Vec<u8> {
    let begins = format!("{name} = ");
    let line = DEFINITIONS
        .lines()
        .find_map(|line| line.strip_prefix(&begins));
    let line = line.unwrap_or_else(|| panic!("{name} has a definition"));
    bytes::list(line, named)
}

#[test]
fn the_document_has_the_definitions_examples() {
    let told = told();
    assert!(told.iter().map(|row| row.number).eq(refusal::numbers()));
    let without_5: Vec<_> = told.into_iter().filter(|row| row.number != 5).collect();
    assert_eq!(without_5, defined());
}

#[test]
fn the_document_has_the_oracles_answers() {
    for row in told() {
        let answer = answer::answer(&row.page).expect("the Rust is foreseen");
        let expected = Outcome::Refused {
            number: row.number,
            record: row.record,
        };
        let outcomes = match row.number {
            UNKNOWN_FUNCTION | UNLIKE_SIGNATURE => vec![answer.table, answer.older, answer.newer],
            LIMIT_PARAMETER => vec![answer.operators],
            _ => vec![answer.outcome_lent(&answer.canonical, 1)],
        };
        for outcome in outcomes {
            assert_eq!(outcome, expected);
        }
    }
}

#[test]
fn the_document_has_the_chosen_pages() {
    let pages: Vec<_> = chosen::refusal_table()
        .iter()
        .map(|row| row.bytes())
        .collect();
    assert_eq!(
        told().into_iter().map(|row| row.page).collect::<Vec<_>>(),
        pages
    );
}

/// The numbers in order.
fn sorted(numbers: impl IntoIterator<Item = u8>) -> Vec<u8> {
    let mut numbers: Vec<u8> = numbers.into_iter().collect();
    numbers.sort();
    numbers
}

/// Which numbers each added check gives, and which it alone.
#[test]
fn the_document_has_the_calls_of_each_number() {
    let tables = "table, older and newer check";
    assert_eq!(given_by(tables), OF_TABLES);
    let by_tables = [given_by("all"), given_by(tables)].concat();
    assert_eq!(sorted(by_tables), sorted(refusal::of_table_check()));
    assert_eq!(given_by("operators check"), [LIMIT_PARAMETER]);
    let others = format!("all but {tables}");
    let by_operators = ["all", &others, "operators check"].map(given_by);
    assert_eq!(
        sorted(by_operators.concat()),
        sorted(refusal::of_operators_check())
    );
}
