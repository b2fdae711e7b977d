//! The function table of the Rust crate promql-parser, read from its source.

use sandzguli::page::{Function, Signature, Variadic};
use sandzguli::Kind;

const SOURCE: &str = include_str!("../../../../oracle/promql-parser/src/parser/function.rs");

/// `ValueType::Vector`
fn kind(value_type: &str) -> Kind {
    let word = value_type.strip_prefix("ValueType::").expect("a type");
    let is_meant = |kind: &Kind| format!("{kind:?}") == word;
    Kind::ALL.into_iter().find(is_meant).expect(word)
}

/// 0 is fixed, a number below unlimited, one above the upper count.
fn variadic(number: &str) -> Variadic {
    match number.parse::<i32>().expect("a number") {
        0 => Variadic::Fixed,
        upper @ 1.. => Variadic::UpTo(upper as u64),
        _ => Variadic::Unlimited,
    }
}

/// `"abs",vec![ValueType::Vector],0,ValueType::Vector,false`; a comma may stand at the end.
fn function(row: &str) -> Function {
    let (name, rest) = row.split_once(",vec![").expect("a name");
    let (kinds, rest) = rest.split_once("],").expect("kinds");
    let mut words = rest.split(',');
    let signature = Signature {
        kinds: kinds
            .split(',')
            .filter(|word| !word.is_empty())
            .map(kind)
            .collect(),
        variadic: variadic(words.next().expect("a count")),
        result: kind(words.next().expect("a result")),
    };
    Function::new(name.trim_matches('"'), signature)
}

/// All functions of the source, in its order.
pub fn functions() -> Vec<Function> {
    let (_, table) = SOURCE
        .split_once("static ref FUNCTIONS")
        .expect("the table");
    let (table, _) = table.split_once("]);").expect("its end");
    let rows = table.split("function!(").skip(1);
    let is_text = |letter: &char| !letter.is_whitespace();
    let row = |row: &str| {
        let row: String = row.chars().filter(is_text).collect();
        function(row.split_once(')').expect("its end").0)
    };
    rows.map(row).collect()
}
