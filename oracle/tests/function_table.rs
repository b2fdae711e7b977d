//! The definitions' function table (`crates/functions/specs/Functions.antt`) is the one that the Rust has compiled in.

#[path = "definitions/table.rs"]
mod table;

use oracle::functions::signatures;
use std::fs;

const PATH: &str = concat!(
    env!("CARGO_MANIFEST_DIR"),
    "/../crates/functions/specs/Functions.antt"
);

#[test]
fn the_definitions_have_the_compiled_table() {
    let definitions = fs::read_to_string(PATH).expect("the definitions' table");
    let defined: Vec<_> = definitions.lines().filter_map(table::row).collect();
    let compiled: Vec<_> = signatures().cloned().collect();
    assert_eq!(defined, compiled);
}
