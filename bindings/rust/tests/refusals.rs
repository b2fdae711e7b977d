//! docs/REFUSALS.md tells the truth: every row has its rule's number, case and name, and the library refuses its page
//! so.

use sandzguli::{Generations, Kind, Refusal, Rule};

const DOCUMENT: &str = include_str!("../../../docs/REFUSALS.md");

/// A row of the document's table.
struct Row {
    rule: Rule,
    /// The case in words.
    case: &'static str,
    /// When a page is refused so; `code` is marked.
    name: String,
    page: Vec<u8>,
    record: usize,
    calls: Calls,
}

type Check = fn(&[u8]) -> Result<Kind, Refusal>;

/// Which calls refuse the page so.
struct Calls {
    check: bool,
    /// The table check, the older check and the newer check.
    table_checks: bool,
    operators_check: bool,
    /// Copy, canonical text and split text.
    writing: bool,
}

fn calls(words: &str) -> Calls {
    let (check, table_checks, operators_check, writing) = match words {
        "all" => (true, true, true, true),
        "all but the checks" => (false, false, false, true),
        "all but table, older and newer check" => (true, false, true, true),
        "table, older and newer check" => (false, true, false, false),
        "operators check" => (false, false, true, false),
        _ => panic!("{words}"),
    };
    Calls {
        check,
        table_checks,
        operators_check,
        writing,
    }
}

impl Calls {
    /// All checks, each with whether it is one of the calls.
    fn checks(&self) -> [(Check, bool); 5] {
        [
            (sandzguli::check, self.check),
            (sandzguli::check_table, self.table_checks),
            (sandzguli::check_older, self.table_checks),
            (sandzguli::check_newer, self.table_checks),
            (sandzguli::check_operators, self.operators_check),
        ]
    }
}

/// Bytes in hexadecimal; `08*256;` stands for 256 bytes 08.
fn bytes(notation: &str) -> Vec<u8> {
    let mut bytes = Vec::new();
    let mut rest = notation;
    while !rest.is_empty() {
        bytes.push(u8::from_str_radix(&rest[..2], 16).expect("hexadecimal digits"));
        rest = &rest[2..];
        if let Some((times, after)) = rest.strip_prefix('*').and_then(|rest| rest.split_once(';')) {
            let more = times.parse::<usize>().expect("a decimal count") - 1;
            bytes.extend(vec![bytes[bytes.len() - 1]; more]);
            rest = after;
        }
        rest = rest.trim_start();
    }
    bytes
}

/// The row in a line of the document, if it is one.
fn row(line: &'static str) -> Option<Row> {
    let cells: Vec<_> = line.trim_matches('|').split(" | ").map(str::trim).collect();
    let rule = Rule::of_number(cells[0].parse().ok()?).expect("a rule");
    let page = match cells[4] {
        "no bytes" => Vec::new(),
        notation => bytes(notation.trim_matches('`')),
    };
    let record = cells[5].parse().expect("a record");
    Some(Row {
        rule,
        case: cells[1],
        name: cells[2].replace('`', ""),
        page,
        record,
        calls: calls(cells[6]),
    })
}

#[test]
fn every_rule_has_its_row() {
    let rows: Vec<_> = DOCUMENT.lines().filter_map(row).collect();
    let rules: Vec<_> = rows.iter().map(|row| row.rule).collect();
    assert_eq!(rules, Rule::ALL);
    for row in rows {
        assert_eq!(row.name, row.rule.name());
        let case = format!("{:?}", row.rule).to_lowercase();
        assert_eq!(row.case.replace(' ', ""), case);
    }
}

/// Those that the column has refuse the page so, the others do not.
#[test]
fn every_page_is_refused_as_its_row_says() {
    for Row {
        rule,
        page,
        record,
        calls,
        ..
    } in DOCUMENT.lines().filter_map(row)
    {
        let refusal = Refusal::new(rule, record);
        for (check, gives) in calls.checks() {
            let checked = check(&page).err();
            assert_eq!(checked == Some(refusal), gives, "{rule:?}");
        }
        for write in [
            sandzguli::copy_into,
            sandzguli::canonical_into,
            sandzguli::split_into,
        ] {
            let mut out = [7; 1];
            let written = write(&page, &mut out).err();
            assert_eq!(written == Some(refusal), calls.writing, "{rule:?}");
            assert_eq!(out, [7]);
        }
    }
}

/// Where a number is some checks' alone, the others accept the page; where it is the writing calls' alone, all checks
/// do. The page of 29 is refused by the table check, the older check and the newer check too, with another number.
#[test]
fn what_a_call_does_not_give_is_no_refusal_of_it() {
    for Row {
        rule, page, calls, ..
    } in DOCUMENT.lines().filter_map(row)
    {
        let is_29 = rule == Rule::NoDeclaredKinds;
        for (check, gives) in calls.checks() {
            assert_eq!(check(&page).is_ok(), !gives && !is_29, "{rule:?}");
        }
        let accepting = match calls.table_checks || is_29 {
            true => Generations::Neither,
            false => Generations::Both,
        };
        assert_eq!(sandzguli::generations(&page), accepting, "{rule:?}");
    }
}
