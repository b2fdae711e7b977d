//! Rows 6 and A4: limitk and limit_ratio with a parameter that is no scalar, which the Rust takes.

use crate::document::{row, rows, Row};
use crate::search::worked;
use oracle::answer::Outcome;
use oracle::hex;

/// The rows of which the two checks differ.
const LIMITS: [&str; 2] = ["6", "A4"];

/// What the rows tell of the check that follows the operators document.
#[test]
fn rows_tell_what_the_operators_check_refuses() {
    let is_of_limits = |row: &Row| LIMITS.contains(&row.number);
    let limits: Vec<Row> = rows().into_iter().filter(is_of_limits).collect();
    assert_eq!(limits.len(), 3);
    for row in limits {
        let worked = worked(&row.page);
        assert!(matches!(worked.outcome, Outcome::Accepted(_)));
        let Outcome::Refused { number, record } = worked.operators else {
            panic!("row {}: the operators check refuses it", row.number);
        };
        let told = format!("; the operators check: refused {number} at {record}");
        assert!(row.port.ends_with(&told), "row {}", row.number);
    }
}

/// Of no other row do the two checks differ.
#[test]
fn other_rows_are_judged_alike() {
    for row in rows() {
        let worked = worked(&row.page);
        let is_alike = worked.operators == worked.outcome;
        assert_eq!(is_alike, !LIMITS.contains(&row.number), "{}", row.number);
    }
}

/// What row 6 says of limit_ratio is true of the operators check too.
#[test]
fn row_6_limit_ratio_likewise() {
    let page = hex::bytes("0100 02016100 0a1e0002");
    assert_eq!(worked(&page).operators, worked(&row("6").page).operators);
}
