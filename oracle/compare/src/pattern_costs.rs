//! Instructions of the call for patterns (document 02, No. 7), on families of patterns length by length and on every
//! pattern of a few signs; and of check on selectors with sixteen such patterns.

use crate::callgrind;
use crate::instructions::{grouped, Set};
use crate::patterns::{every, signs_below};
use oracle::covered;
use oracle::page::record::{Matcher, Operation, Record, Text};
use oracle::page::write;
use std::path::Path;

/// The function that is counted.
const CALL: &str = "sandzguli_pattern";

const LENGTHS: [usize; 6] = [0, 1, 16, 64, 128, 255];

/// Every pattern of fewer signs is counted.
const SIGNS_BELOW: usize = 6;

/// Words, and a pattern of so many bytes.
type Family = (&'static str, fn(usize) -> String);

#[rustfmt::skip]
const FAMILIES: [Family; 11] = [
    ("letters", |length| "a".repeat(length)),
    ("letters with bars", |length| filled("a|", length)),
    ("stars", |length| filled("a*", length)),
    ("brackets", |length| nested("(", ")", length)),
    ("brackets not closed", |length| "(".repeat(length)),
    ("brackets with stars", |length| nested("(", ")*", length)),
    ("empty brackets", |length| filled("()", length)),
    ("stars on brackets", |length| filled("(a)*", length)),
    ("nested choices", |length| nested("(a|", ")", length)),
    ("nested choices not closed", |length| filled("(a|", length)),
    ("letters, a foreign byte", |length| filled("a", length.max(1) - 1) + if length > 0 { ":" } else { "" }),
];

/// As often as it fits, and letters for the rest.
fn filled(unit: &str, length: usize) -> String {
    let units = unit.repeat(length / unit.len());
    units + &"a".repeat(length % unit.len())
}

/// As deep as it can be, around the letters that are left.
fn nested(open: &str, close: &str, length: usize) -> String {
    let level = open.len() + close.len();
    let [opened, closed] = [open, close].map(|part| part.repeat(length / level));
    opened + &"a".repeat(length % level) + &closed
}

/// Check on selectors whose sixteen values are patterns of 255 bytes, beside the values that are none.
pub const PAGES: Set = Set {
    calls: &["check"],
    pages: &[
        "16 of 255",
        "letters, 16 of 255",
        "stars, 16 of 255",
        "brackets, 16 of 255",
        "brackets not closed, 16 of 255",
        "nested choices, 16 of 255",
    ],
    tables: &[("Instructions, patterns", |profile| profile.instructions)],
};

/// The page of a column: a selector with so many patterns of this family and of so many bytes.
pub fn page(name: &str) -> Option<Vec<u8>> {
    let (family, sizes) = name.rsplit_once(", ")?;
    let (count, length) = sizes.split_once(" of ")?;
    let (_, make) = FAMILIES.iter().find(|(words, _)| *words == family)?;
    let pattern = make(length.parse().ok()?);
    let matcher = Matcher {
        operation: Operation::Regex(covered::word(pattern.as_bytes()) == 1),
        name: Text::from("a"),
        value: Text::from(pattern.as_str()),
    };
    Some(write::page(&[Record::Selector {
        name: Text::from("m"),
        matchers: vec![matcher; count.parse().ok()?],
    }]))
}

/// The patterns that valgrind watches the call on, one after the other: the families, or every short one.
pub fn patterns(name: &str) -> Option<Vec<Vec<u8>>> {
    let of_family = |(_, make): &Family| LENGTHS.map(|length| make(length).into_bytes());
    match name {
        "families" => Some(FAMILIES.iter().flat_map(of_family).collect()),
        "short" => Some(every(signs_below(SIGNS_BELOW)).collect()),
        _ => None,
    }
}

/// The instructions of each call, in the order of the patterns.
fn counted(program: &Path, name: &str) -> Result<Vec<(Vec<u8>, u64)>, String> {
    let patterns = patterns(name).ok_or("no such patterns")?;
    let counts = callgrind::count_each(CALL, program, &["pattern", name])?;
    match counts.len() == patterns.len() {
        true => Ok(patterns.into_iter().zip(counts).collect()),
        false => Err(format!("{} calls of {}", counts.len(), patterns.len())),
    }
}

/// A table of the families, and what short patterns take at most.
pub fn table(program: &Path) -> Result<String, String> {
    let families = counted(program, "families")?;
    let mut table = format!("| Instructions, `{CALL}` |");
    table.extend(LENGTHS.map(|length| format!(" {length} |")));
    table += &format!("\n{}|\n", "|---".repeat(1 + LENGTHS.len()));
    for ((words, _), costs) in FAMILIES.iter().zip(families.chunks(LENGTHS.len())) {
        table += &format!("| {words} |");
        table.extend(
            costs
                .iter()
                .map(|(_, cost)| format!(" {} |", grouped(*cost))),
        );
        table.push('\n');
    }
    Ok(table + "\n" + &most(&counted(program, "short")?))
}

/// The short pattern with the most instructions, and the one with the most for each byte above those of no byte.
fn most(costs: &[(Vec<u8>, u64)]) -> String {
    let (empty, rest) = costs.split_first().expect("the empty pattern is first");
    let (pattern, cost) = rest.iter().max_by_key(|(_, cost)| *cost).expect("others");
    let share = |(pattern, cost): &&(Vec<u8>, u64)| {
        cost.saturating_sub(empty.1) * 1000 / pattern.len() as u64
    };
    let dearest = rest.iter().max_by_key(share).expect("others");
    let [pattern, dear] = [pattern, &dearest.0].map(|pattern| String::from_utf8_lossy(pattern));
    let more = share(&dearest) as f64 / 1000.0;
    let (count, signs, least) = (costs.len(), SIGNS_BELOW - 1, empty.1);
    format!(
        "{count} patterns of up to {signs} signs: {least} for the empty one, at most {cost} (`{pattern}`), \
         at most {more:.1} more for each byte (`{dear}`)\n"
    )
}
