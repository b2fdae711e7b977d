//! The rows of docs/DIFFERENCES.md.

use oracle::hex;

const DOCUMENT: &str = include_str!("../../../docs/DIFFERENCES.md");

pub struct Row {
    /// The words of the first column.
    pub number: &'static str,
    pub page: Vec<u8>,
    pub rust: &'static str,
    pub port: &'static str,
    /// The cells behind the port's.
    pub behind: Vec<&'static str>,
}

fn cells(line: &'static str) -> Vec<&'static str> {
    line.trim_matches('|').split(" | ").map(str::trim).collect()
}

/// What stands between the first two backquotes, if there are any.
pub fn quoted(cell: &str) -> Option<&str> {
    cell.split('`').nth(1)
}

/// The rows of every table; the page stands in the third column, the Rust's answer in the fourth.
pub fn rows() -> Vec<Row> {
    let mut port = 0;
    let mut rows = Vec::new();
    for line in DOCUMENT.lines().filter(|line| line.starts_with('|')) {
        let cells = cells(line);
        if let Some(found) = cells.iter().position(|title| title.ends_with("he port")) {
            port = found;
        } else if !line.starts_with("|---") {
            rows.push(Row {
                number: cells[0],
                page: hex::bytes(quoted(cells[2]).unwrap_or_default()),
                rust: cells[3],
                port: cells[port],
                behind: cells[port + 1..].to_vec(),
            });
        }
    }
    rows
}

/// The only row of this number.
pub fn row(number: &str) -> Row {
    let mut found: Vec<Row> = rows()
        .into_iter()
        .filter(|row| row.number == number)
        .collect();
    assert_eq!(found.len(), 1, "rows of number {number}");
    found.remove(0)
}
