//! The pages that the document takes apart: rows, records, answers and words.

use crate::document::{bytes, codes, field_bytes, number, quoted, tables, DOCUMENT};
use crate::{answer, name};
use sandzguli::page::Page;

extern "C" {
    fn sandzguli_check(page: *const u8, page_len: usize) -> u64;
    fn sandzguli_joint_label(page: *const u8, page_len: usize) -> u64;
    fn sandzguli_canonical(page: *const u8, page_len: usize, out: *mut u8, out_len: usize) -> u64;
}

/// A row: where its bytes start, the bytes, the fields that they are, what it says.
struct Row {
    offset: usize,
    bytes: Vec<u8>,
    fields: &'static str,
    meaning: &'static str,
}

struct Apart {
    page: Vec<u8>,
    answer: &'static str,
    /// Calls, and the words that they answer.
    words: Vec<(&'static str, u64)>,
    rows: Vec<Row>,
    /// All of the section.
    text: &'static str,
}

fn apart(text: &'static str) -> Apart {
    let line = |start| text.lines().find(|line| line.starts_with(start));
    let page = line("Page: ").expect("the page");
    let mut answers = codes(line("Answer: ").expect("the answer")).into_iter();
    let (_, answer) = answers.next().expect("an answer");
    let word = |digits: &str| u64::from_str_radix(&digits[2..], 16).expect("0x and digits");
    let rows = tables(text)[0].columns(["Offset", "Bytes", "Fields", "Meaning"]);
    let row = |[offset, notation, fields, meaning]: [&'static str; 4]| Row {
        offset: number(offset) as usize,
        bytes: bytes(quoted(notation)[0]),
        fields,
        meaning,
    };
    Apart {
        page: bytes(quoted(page)[0]),
        answer,
        words: answers.map(|(call, digits)| (call, word(digits))).collect(),
        rows: rows.into_iter().map(row).collect(),
        text,
    }
}

/// The four pages.
fn pages() -> Vec<Apart> {
    let sections = DOCUMENT.split("\n### ").skip(1);
    let pages: Vec<_> = sections.map(apart).collect();
    assert_eq!(pages.len(), 4);
    pages
}

#[test]
fn rows_are_the_bytes_of_the_page() {
    for apart in pages() {
        let mut joined = Vec::new();
        for row in &apart.rows {
            assert_eq!(row.offset, joined.len(), "{}", row.meaning);
            assert_eq!(row.bytes, field_bytes(row.fields), "{}", row.meaning);
            joined.extend_from_slice(&row.bytes);
        }
        assert_eq!(joined, apart.page);
    }
}

/// Where the records of a page start, by the rows: index, the document's word, offset.
fn starts(rows: &[Row]) -> Vec<(u64, &'static str, usize)> {
    let start = |row: &Row| {
        let (index, words) = row.meaning.strip_prefix("record ")?.split_once(": ")?;
        let word = words.split([' ', ',']).next()?;
        Some((number(index), word, row.offset))
    };
    rows.iter().filter_map(start).collect()
}

#[test]
fn records_start_where_the_rows_say() {
    for apart in pages() {
        let page = Page::read(&apart.page).expect("a page");
        assert_eq!(page.to_bytes(), apart.page);
        let start = |(index, record)| {
            let before = Page::from(page.records[..index].to_vec());
            (index as u64, name(record), before.to_bytes().len())
        };
        let expected: Vec<_> = page.records.iter().enumerate().map(start).collect();
        assert_eq!(starts(&apart.rows), expected);
    }
}

/// The word that a call answers.
fn word(call: &str, page: &[u8]) -> u64 {
    let (start, length) = (page.as_ptr(), page.len());
    let mut out = [0; 100];
    // SAFETY: the page and the buffer are lent with their lengths.
    unsafe {
        match call {
            "check" => sandzguli_check(start, length),
            "joint_label" => sandzguli_joint_label(start, length),
            "canonical" => sandzguli_canonical(start, length, out.as_mut_ptr(), out.len()),
            _ => panic!("no call {call}"),
        }
    }
}

#[test]
fn answers_and_words_are_the_librarys() {
    for apart in pages() {
        assert_eq!(answer(&apart.page), apart.answer);
        let calls = apart.words.iter().map(|(call, _)| *call);
        let given: Vec<_> = calls.map(|call| (call, word(call, &apart.page))).collect();
        assert_eq!(given, apart.words);
        // A refusal has its label's place after the words, an answer its length.
        let bytes = format!("({} bytes", apart.answer.len());
        let is_label = given[1].0 == "joint_label";
        assert!(is_label || apart.text.contains(&bytes), "{bytes}");
    }
}

#[test]
fn the_label_of_19_lies_in_its_row() {
    let pages = pages();
    let apart = pages.last().expect("a page");
    let label = sandzguli::joint_label(&apart.page).expect("a label");
    let start = label.as_ptr() as usize - apart.page.as_ptr() as usize;
    let place = format!("({} bytes, from {start} on)", label.len());
    assert!(apart.text.contains(&place), "{place}");
    let holds = |row: &&Row| row.offset + 1 == start && row.bytes[1..] == *label.as_bytes();
    let row = apart.rows.iter().find(holds).expect("the label's row");
    assert!(row.meaning.ends_with(&format!("at {start}")));
}
