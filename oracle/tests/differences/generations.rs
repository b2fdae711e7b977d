//! Rows 13a to 13d: what the functions documents have otherwise than the Rust's function table, whole, and what the
//! checks with the tables of the two generations say of it.

use crate::document::{quoted, rows, Row};
use crate::search::worked;
use oracle::answer::Outcome;
use oracle::generate::functions::counts;
use oracle::generations::{disagreements, Generation};
use oracle::page::record::{Kind, Record, Signature};
use oracle::page::write;
use oracle::{functions, hex};
use std::collections::BTreeSet;

/// The rows about the generations, with the call that each page ends in.
fn of_generations() -> Vec<(Row, Signature<'static>, usize)> {
    let is_meant = |row: &Row| row.number.starts_with("13");
    let rows = rows().into_iter().filter(is_meant);
    rows.map(|row| {
        let page: &'static [u8] = row.page.clone().leak();
        match worked(page).records.last() {
            Some(Record::Call {
                signature,
                arguments,
            }) => (row, signature.clone(), *arguments),
            _ => panic!("row {}: a call", row.number),
        }
    })
    .collect()
}

/// What a check with a table says, as the rows tell it.
fn told(outcome: Outcome) -> String {
    match outcome {
        Outcome::Accepted(_) => "accepts it".into(),
        Outcome::Refused { number, record } => format!("refused {number} at {record}"),
    }
}

#[test]
fn rows_tell_what_the_tables_say() {
    for (row, ..) in of_generations() {
        let worked = worked(&row.page);
        let [_, older, newer] = row.behind.as_slice() else {
            panic!("row {}: three cells", row.number);
        };
        let outcomes = [worked.older, worked.newer].map(told);
        assert_eq!(outcomes, [*older, *newer], "row {}", row.number);
        let of_table = format!("; with the function table {}", told(worked.table));
        let is_refused = matches!(worked.table, Outcome::Refused { .. });
        assert_eq!(row.port.ends_with(&of_table), is_refused, "{}", row.number);
    }
}

/// "The difference is recorded": every name that a document or the repository's table lacks, and every count or extra
/// that is shown otherwise, once; and no other name.
#[test]
fn every_disagreement_has_its_row() {
    let mut found = BTreeSet::new();
    for generation in Generation::ALL {
        let disagreements = disagreements::of(generation.functions());
        found.extend(disagreements.added);
        found.extend(disagreements.left_out);
        found.extend(disagreements.kinds);
        found.extend(disagreements.counts);
    }
    let rows = of_generations();
    let named: Vec<&str> = rows
        .iter()
        .map(|(_, call, _)| call.name.text.as_ref())
        .collect();
    assert_eq!(named.len(), found.len());
    assert_eq!(BTreeSet::from_iter(named), found);
}

/// `2.53.3, line 374`: where a document shows the function, and what stands there; a document that does not is named
/// too.
#[test]
fn rows_tell_where_the_documents_show_them() {
    for (row, call, _) in of_generations() {
        let (cell, name) = (row.behind[0], call.name.text.as_ref());
        let mut shown = 0;
        for generation in Generation::ALL {
            let document = generation.document();
            let functions = document.functions().expect("the document is read");
            let Some(described) = functions.get(name) else {
                assert!(cell.contains("in neither") || cell.contains(&absent(generation)));
                continue;
            };
            let place = format!("{}, line {}", document.version, described.line);
            assert!(cell.contains(&place), "row {}: {place}", row.number);
            let line = document
                .text
                .lines()
                .nth(described.line - 1)
                .unwrap_or_default();
            let is_quoted = |code: &str| line.contains(&format!("`{code}`"));
            assert!(quoted(cell).is_none_or(is_quoted), "row {}", row.number);
            shown += 1;
        }
        assert_eq!(
            shown == 0,
            cell.contains("in neither"),
            "row {}",
            row.number
        );
    }
}

fn absent(generation: Generation) -> String {
    format!("not in {}", generation.document().version)
}

/// The shortest expression of a kind: `a`, NaN, `a[0s]`, an empty string.
fn shortest(kind: Kind) -> Vec<u8> {
    hex::bytes(match kind {
        Kind::Vector => "02016100",
        Kind::Scalar => "0002",
        Kind::Matrix => "02016100 0300",
        Kind::String => "0100",
    })
}

/// "The function with as few arguments as it takes, of the shortest expressions": with the signature of the repository,
/// or of a document where that is the difference.
#[test]
fn pages_have_the_fewest_arguments() {
    for (row, call, arguments) in of_generations() {
        assert_eq!(arguments, *counts(&call).start(), "row {}", row.number);
        let kinds = call.kinds.iter().take(arguments).copied();
        let mut page: Vec<u8> = kinds.flat_map(shortest).collect();
        let own = functions::signature(&call.name.text).unwrap_or(Generation::Older.own());
        let is_shown = functions::bytes(&call) != functions::bytes(own);
        if is_shown {
            let shown = &Generation::Older.functions()[call.name.text.as_ref()].shown;
            assert!(shown.kinds().eq(call.kinds.iter().copied()));
            assert_eq!((call.extra, call.result), (shown.extra(), own.result));
        }
        assert_eq!(is_shown, row.number == "13c");
        let signature = call;
        write::record(
            &mut page,
            &Record::Call {
                signature,
                arguments,
            },
        );
        assert_eq!(page, row.page, "row {}", row.number);
    }
}
