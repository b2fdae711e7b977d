//! A row that keeps a given query has the shortest page of it. A query has one page, but for a minus on a number, a
//! modifier that says nothing and the order of @ and offset: the shortest has none of the first two, and @ first.

use crate::document::rows;
use crate::search::worked;
use oracle::page::read::Reader;
use oracle::page::record::*;
use oracle::page::write;

fn records(page: &[u8]) -> Vec<Record<'_>> {
    let mut reader = Reader::new(page);
    let mut records = Vec::new();
    while !reader.is_at_end() {
        records.push(reader.record().expect("a readable page"));
    }
    records
}

/// The page of the same query without what may be left out.
fn shortest(page: &[u8]) -> Vec<u8> {
    let mut kept: Vec<Record> = Vec::new();
    for record in records(page) {
        match (record, kept.last_mut()) {
            (Record::Unary, Some(Record::Number(number))) => {
                *number = Number::of_value(-number.value());
            }
            (Record::Binary { code, modifier }, _) => kept.push(Record::Binary {
                code,
                modifier: modifier.filter(|modifier| *modifier != Modifier::EMPTY),
            }),
            (record, _) => kept.push(record),
        }
    }
    write::page(&kept)
}

#[test]
fn pages_of_given_queries_are_the_shortest() {
    let given = |number: &str| number.starts_with(char::is_alphabetic) && number != "E5";
    let rows = rows();
    let given: Vec<_> = rows.iter().filter(|row| given(row.number)).collect();
    let is_late = |pair: &[Record]| matches!(pair, [Record::Offset { .. }, Record::At(_)]);
    for row in &given {
        assert_eq!(row.page, shortest(&row.page), "{}", row.number);
        let readable = worked(&row.page).records;
        assert!(!readable.windows(2).any(is_late), "{}", row.number);
    }
    assert!(given.len() > 50, "{} rows", given.len());
}

#[test]
fn what_may_be_left_out_is() {
    let page = oracle::hex::bytes("000005 07 (000005)*2; 09010100000000 00");
    assert_eq!(
        oracle::hex::text(&shortest(&page)),
        "000105000005000005090100"
    );
}
