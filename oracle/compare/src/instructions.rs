//! Instructions of the library's calls on fixed pages, held to the newest rows of docs/SPEED.md. There is no clock: an
//! archive has the same counts in every run.

use crate::callgrind::{self, Profile};
use crate::pattern_costs;
use oracle::generate::fractions::fills;
use oracle::generate::{functions, generations, long_texts, operators};
use oracle::generations::Generation;
use oracle::hex;
use oracle::page::record::{Fraction, Number};
use std::path::Path;

/// Pages of so many records, a line each.
const PAGES: [(&str, &str); 3] = [
    ("5", include_str!("../pages/5")),
    ("40", include_str!("../pages/40")),
    ("250", include_str!("../pages/250")),
];

/// A table of docs/SPEED.md: the title of the first column, and the figure of a column.
pub type Table = (&'static str, fn(&Profile) -> u64);

/// Tables with the same columns: the calls, and the pages that each is asked with.
pub struct Set {
    pub calls: &'static [&'static str],
    pub pages: &'static [&'static str],
    pub tables: &'static [Table],
}

/// The page of 255 nested calls of the function table.
const NESTED: &str = "255 nested calls";

/// The page of 127 nested limitk.
const NESTED_LIMITS: &str = "127 nested limits";

/// The page of 63 nested double_exponential_smoothing: the older generation refuses the first.
const NESTED_SMOOTHINGS: &str = "63 nested smoothings";

/// All calls on pages of so many records; check on selectors with so many values of so many bytes; check beside the one
/// with the function table on nested calls; check beside the one that follows the operators document on nested limits;
/// both beside the calls for the two generations on nested calls that both accept, and on such that the newer accepts.
pub const SETS: [Set; 6] = [
    Set {
        calls: &["check", "copy", "canonical", "split"],
        pages: &["5", "40", "250"],
        tables: &[
            ("Instructions", |profile| profile.instructions),
            ("Calls of `memcpy` and `memset`", |profile| profile.calls),
            ("Bytes that these write", |profile| profile.bytes),
        ],
    },
    Set {
        calls: &["check"],
        pages: &[
            "1 of 1",
            "1 of 128",
            "1 of 255",
            "16 of 1",
            "16 of 8",
            "16 of 255",
        ],
        tables: &[("Instructions, values", |profile| profile.instructions)],
    },
    Set {
        calls: &["check", "check_table"],
        pages: &[NESTED],
        tables: &[("Instructions, functions", |profile| profile.instructions)],
    },
    Set {
        calls: &["check", "check_operators"],
        pages: &["5", "40", NESTED_LIMITS],
        tables: &[("Instructions, operators", |profile| profile.instructions)],
    },
    Set {
        calls: &[
            "check",
            "check_table",
            "check_older",
            "check_newer",
            "generations",
        ],
        pages: &[NESTED],
        tables: &[("Instructions, generations", |profile| profile.instructions)],
    },
    Set {
        calls: &["check", "check_table", "check_newer", "generations"],
        pages: &[NESTED_SMOOTHINGS],
        tables: &[("Instructions, the newer alone", |profile| {
            profile.instructions
        })],
    },
];

/// All calls on a page of 120 fills, of which two and two differ in the last digit: whole numbers, and fractions of the
/// same digits. No row of docs/SPEED.md is held to these.
pub const FILLS: Set = Set {
    calls: &["check", "copy", "canonical", "split"],
    pages: &[
        "whole, 1 digit",
        "fractions, 1 digit",
        "whole, 15 digits",
        "fractions, 15 digits",
    ],
    tables: &[("Instructions, 120 fills", |profile| profile.instructions)],
};

/// The page of a column of `FILLS`.
fn filled(name: &str) -> Option<Vec<u8>> {
    let (form, digits) = name.split_once(", ")?;
    let digits = match digits {
        "1 digit" => [5, 7],
        "15 digits" => [999_999_999_999_995, 999_999_999_999_997],
        _ => return None,
    };
    let fills = match form {
        "whole" => digits.map(Number::Whole),
        "fractions" => {
            let [left, right] = digits.map(|digits| Fraction::new(digits, 15));
            [Number::Fraction(left?), Number::Fraction(right?)]
        }
        _ => return None,
    };
    Some(fills::repeated(fills, 60))
}

/// The pages of a column: of so many records, the one with so many patterns or values, the one with such fills, or the
/// one of nested calls, limits or smoothings.
pub fn pages(name: &str) -> Option<Vec<Vec<u8>>> {
    if name == NESTED {
        return Some(vec![functions::nested_abs()]);
    }
    if name == NESTED_LIMITS {
        return Some(vec![operators::nested_limits()]);
    }
    if name == NESTED_SMOOTHINGS {
        return Some(vec![generations::nested(Generation::Newer)]);
    }
    if let Some(page) = pattern_costs::page(name) {
        return Some(vec![page]);
    }
    if let Some((count, length)) = name.split_once(" of ") {
        let page = long_texts::values(count.parse().ok()?, length.parse().ok()?);
        return Some(vec![page]);
    }
    if name.contains(", ") {
        return Some(vec![filled(name)?]);
    }
    let (_, lines) = PAGES.iter().find(|(records, _)| *records == name)?;
    Some(lines.lines().map(hex::bytes).collect())
}

/// The columns of a set's tables, call by call and size by size, with what was counted.
pub type Columns = Vec<(String, Profile)>;

/// Runs the program twice for each column, with the call and the pages as its words.
pub fn count(set: &Set, program: &Path) -> Result<Columns, String> {
    let mut columns = Columns::new();
    for call in set.calls {
        for pages in set.pages {
            let function = format!("sandzguli_{call}");
            let first = callgrind::count(&function, program, &[call, pages])?;
            let second = callgrind::count(&function, program, &[call, pages])?;
            if first != second {
                return Err(format!("{call}, {pages}: {first:?}, then {second:?}"));
            }
            columns.push((format!("{call}, {pages}"), first));
        }
    }
    Ok(columns)
}

/// The tables of a set with these counts as their only row.
pub fn tables(set: &Set, columns: &Columns) -> String {
    let table = |(title, figure): &Table| {
        let figures = columns.iter().map(|(_, profile)| grouped(figure(profile)));
        let row = line("this archive", figures);
        let rule = "|---".repeat(1 + columns.len());
        format!("{}\n{rule}|\n{row}\n\n", header(title, columns))
    };
    set.tables.iter().map(table).collect()
}

fn header(title: &str, columns: &Columns) -> String {
    line(title, columns.iter().map(|(name, _)| name.clone()))
}

fn line(first: &str, cells: impl Iterator<Item = String>) -> String {
    let cells: String = cells.map(|cell| format!(" {cell} |")).collect();
    format!("| {first} |{cells}")
}

/// The number with a comma before every three digits.
pub(crate) fn grouped(number: u64) -> String {
    match number {
        0..1000 => number.to_string(),
        _ => format!("{},{:03}", grouped(number / 1000), number % 1000),
    }
}

/// A line for each figure that is more than one percent above the newest row of its table in the document.
pub fn excesses(set: &Set, columns: &Columns, document: &str) -> Result<Vec<String>, String> {
    let mut excesses = Vec::new();
    for (title, figure) in set.tables {
        let row = newest_row(document, &header(title, columns));
        let row = row.filter(|row| row.len() == columns.len());
        let row = row.ok_or(format!("docs/SPEED.md: no row of figures for '{title}'"))?;
        for ((name, profile), newest) in columns.iter().zip(row) {
            let figure = figure(profile);
            if 100 * figure > 101 * newest {
                let (figure, newest) = (grouped(figure), grouped(newest));
                excesses.push(format!(
                    "{title}, {name}: {figure}, more than 1 % above {newest}"
                ));
            }
        }
    }
    Ok(excesses)
}

/// The figures of the last row of the table with this header.
fn newest_row(document: &str, header: &str) -> Option<Vec<u64>> {
    let table = document.lines().skip_while(|line| *line != header);
    let row = table.take_while(|line| line.starts_with('|')).last()?;
    let figures = row.trim_matches('|').split('|').skip(1);
    figures
        .map(|cell| cell.trim().replace(',', "").parse().ok())
        .collect()
}
