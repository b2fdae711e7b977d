//! The document's tables of functions: the function table, and those of the two server generations.

use crate::document::{bytes, number, quoted, rows};
use sandzguli::page::{Function, Page, Record, Signature};
use std::collections::BTreeMap;

/// Signatures by the names of their functions.
pub type Functions = BTreeMap<String, Signature>;

/// A server generation, as its row has it.
pub struct Generation {
    pub name: &'static str,
    pub server: &'static str,
    /// How many functions it is said to have.
    pub count: usize,
    pub functions: Functions,
}

/// A signature in bytes, as a call record carries it.
fn signature(notation: &'static str) -> Signature {
    let call = [b"\x0b\x01f".to_vec(), bytes(notation), vec![0]].concat();
    let mut records = Page::read(&call).expect("a call").records;
    match records.pop() {
        Some(Record::Call { function, .. }) => function.signature,
        _ => panic!("{notation} is no signature"),
    }
}

/// The function table.
pub fn function_table() -> Functions {
    let mut functions = Functions::new();
    for [notation, names] in rows(["Signature", "Functions"]) {
        let signature = signature(quoted(notation)[0]);
        let names = quoted(names).into_iter();
        functions.extend(names.map(|name| (name.into(), signature.clone())));
    }
    functions
}

/// The function table without the functions that a generation lacks, and what it has beside them.
fn functions(lacks: &'static str, beside: &'static str, notation: &'static str) -> Functions {
    let mut functions = function_table();
    for name in quoted(lacks) {
        assert!(functions.remove(name).is_some(), "{name} is not there");
    }
    for (name, notation) in quoted(beside).into_iter().zip(quoted(notation)) {
        let before = functions.insert(name.into(), signature(notation));
        assert_eq!(before, None, "{name} is there already");
    }
    functions
}

/// The older and the newer.
pub fn generations() -> [Generation; 2] {
    let columns = [
        "Generation",
        "Server",
        "Functions",
        "Lacks",
        "Has beside them",
        "With the signature",
    ];
    let rows = rows(columns);
    assert_eq!(rows.len(), 2);
    ["older", "newer"].map(|generation| {
        let row = rows.iter().find(|row| row[0] == generation);
        let [name, server, count, lacks, beside, notation] = *row.expect(generation);
        Generation {
            name,
            server,
            count: number(count) as usize,
            functions: functions(lacks, beside, notation),
        }
    })
}

/// All functions of the three tables.
pub fn all_functions() -> Vec<Function> {
    let mut all = function_table();
    for generation in generations() {
        all.extend(generation.functions);
    }
    let all = all.into_iter();
    all.map(|(name, signature)| Function::new(name, signature))
        .collect()
}
