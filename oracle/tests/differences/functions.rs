//! Rows 12a, 12b and A17: the function table, what the Rust finds beside it and what it does not compare.

use crate::document::row;
use crate::search::worked;
use oracle::answer::Outcome;
use oracle::functions;
use oracle::page::record::Record;
use promql_parser::door;
use promql_parser::parser::value::ValueType;
use promql_parser::parser::{clear_extra_functions, register_extra_functions, Function};

/// What the rows tell of the check with the function table.
#[test]
fn rows_tell_what_the_table_refuses() {
    for name in ["12a", "12b", "A17"] {
        let row = row(name);
        let Outcome::Refused { number, record } = worked(&row.page).table else {
            panic!("row {name}: the table refuses it");
        };
        let told = format!("; with the function table refused {number} at {record}");
        assert!(row.port.ends_with(&told), "row {name}: {}", row.port);
    }
}

/// The name and the number of kinds that the row's only record carries, a call.
fn carried(number: &str) -> (String, usize) {
    let page = row(number).page;
    match worked(&page).records.as_slice() {
        [Record::Call { signature, .. }] => {
            (signature.name.text.to_string(), signature.kinds.len())
        }
        _ => panic!("row {number}: a call"),
    }
}

/// The Rust finds a function that was registered; the table stays closed, and no function of it can be registered anew.
#[test]
fn row_12a_the_rust_finds_registered_functions() {
    let page = row("12a").page;
    let before = worked(&page).table;
    assert!(door::get_function("f").is_none());
    let function = |name| Function::new(name, vec![], 0, ValueType::Vector, false);
    register_extra_functions(vec![function("f")]).expect("no function of the table");
    let found = door::get_function("f");
    assert_eq!(worked(&page).table, before);
    clear_extra_functions();
    assert_eq!(found, Some(function("f")));
    assert_eq!(door::get_function("f"), None);
    assert!(register_extra_functions(vec![function("abs")]).is_err());
    assert_eq!(carried("12a"), ("f".into(), 0));
}

#[test]
fn row_12b_the_rust_takes_any_signature() {
    let known = functions::signature("ln").expect("a function of the table");
    assert_eq!(known.kinds.len(), 1);
    assert_eq!(carried("12b"), ("ln".into(), 0));
    assert!(matches!(
        worked(&row("12b").page).outcome,
        Outcome::Accepted(_)
    ));
}

/// What the first section says of the table.
#[test]
fn entry_12_the_table_has_as_many_functions_as_are_told() {
    assert_eq!(functions::names().count(), 91);
    let found = functions::names().filter_map(door::get_function);
    let experimental = found.filter(|function| function.experimental);
    assert!(experimental.count() > 10);
}
