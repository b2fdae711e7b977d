//! Reading docs/PAGE.md: its tables, and the notations of their cells.

pub const DOCUMENT: &str = include_str!("../../../../docs/PAGE.md");

/// A table: the words of its head, and its rows.
pub struct Table {
    head: Vec<&'static str>,
    rows: Vec<Vec<&'static str>>,
}

/// The cells of one line of a table.
fn cells(line: &'static str) -> Vec<&'static str> {
    line.trim_matches('|').split('|').map(str::trim).collect()
}

/// The tables of a part of the document.
pub fn tables(part: &'static str) -> Vec<Table> {
    let lines: Vec<_> = part.lines().collect();
    let tables = lines.split(|line| !line.starts_with('|'));
    tables
        .filter(|table| !table.is_empty())
        .map(|table| Table {
            head: cells(table[0]),
            rows: table[2..].iter().map(|line| cells(line)).collect(),
        })
        .collect()
}

impl Table {
    /// The cells of some columns, row by row; nothing where a column is not there.
    pub fn columns<const COUNT: usize>(&self, names: [&str; COUNT]) -> Vec<[&'static str; COUNT]> {
        let places = names.map(|name| self.head.iter().position(|word| *word == name));
        if places.contains(&None) {
            return Vec::new();
        }
        let cells = |row: &Vec<&'static str>| places.map(|place| row[place.expect("a column")]);
        self.rows.iter().map(cells).collect()
    }
}

/// The rows of all tables that have these columns.
pub fn rows<const COUNT: usize>(names: [&str; COUNT]) -> Vec<[&'static str; COUNT]> {
    let rows: Vec<_> = tables(DOCUMENT)
        .iter()
        .flat_map(|table| table.columns(names))
        .collect();
    assert!(!rows.is_empty(), "the document has a table of {names:?}");
    rows
}

/// What stands in code, and the word before it.
pub fn codes(text: &'static str) -> Vec<(&'static str, &'static str)> {
    let parts: Vec<_> = text.split('`').collect();
    let pairs = parts.chunks_exact(2);
    pairs
        .map(|pair| (pair[0].split_whitespace().last().unwrap_or(""), pair[1]))
        .collect()
}

/// What stands in code.
pub fn quoted(cell: &'static str) -> Vec<&'static str> {
    codes(cell).into_iter().map(|(_, code)| code).collect()
}

/// Bytes in hexadecimal; spaces and brackets are for the eye.
pub fn bytes(notation: &str) -> Vec<u8> {
    let digits = notation.replace([' ', '[', ']'], "");
    assert_eq!(digits.len() % 2, 0, "{notation}");
    let byte = |place| u8::from_str_radix(&digits[place..place + 2], 16).expect("hexadecimal");
    (0..digits.len()).step_by(2).map(byte).collect()
}

/// The pages in a cell.
pub fn pages(cell: &'static str) -> Vec<Vec<u8>> {
    match cell {
        "no bytes" => vec![Vec::new()],
        notations => quoted(notations).into_iter().map(bytes).collect(),
    }
}

/// The byte in brackets.
pub fn bracketed(notation: &str) -> u64 {
    let inner = notation.split(['[', ']']).nth(1).expect("brackets");
    u64::from_str_radix(inner, 16).expect("hexadecimal")
}

/// A number in decimal digits, with commas.
pub fn number(digits: &str) -> u64 {
    digits.replace(',', "").parse().expect("a number")
}

/// A number as the document says that it is written.
pub fn number_bytes(number: u64) -> Vec<u8> {
    let group = (number % 128) as u8;
    if number < 128 {
        return vec![group];
    }
    let mut bytes = vec![128 + group];
    bytes.extend(number_bytes(number / 128));
    bytes
}

/// Fields as they are written: numbers, and texts in quotes.
pub fn field_bytes(fields: &str) -> Vec<u8> {
    let field = |field: &str| match field.strip_prefix('"') {
        None => number_bytes(number(field)),
        Some(text) => {
            let text = text.strip_suffix('"').expect("a closing quote");
            let length = number_bytes(text.len() as u64);
            [length, text.into()].concat()
        }
    };
    fields.split(", ").flat_map(field).collect()
}
