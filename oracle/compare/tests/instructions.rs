//! Callgrind's counts are read as it writes them; a figure above the newest row is found; the pages have the records
//! that they are said to have.

use compare::callgrind::{parse, Profile};
use compare::instructions::{self, Columns};
use oracle::answer::{self, Outcome};
use oracle::generations::Generations;
use oracle::operators::is_limited;
use oracle::page::record::{Matcher, Record};

/// In callgrind's form: 16 calls of a function that calls another and `memcpy`; the other calls `memset` and one that
/// recurses.
const WRITTEN: &str = "# callgrind format
version: 1
creator: callgrind-3.19.0
cmd:  program split 5
desc: Trigger: Program termination

positions: line
events: Ir
summary: 9010

ob=/lib/x86_64-linux-gnu/libc.so.6
fl=./csu/../csu/libc-start.c
fn=(below main)
cob=/program
cfi=???
cfn=program::main
calls=1 0 
58 9010

ob=/program
fl=???
fn=program::main
cfn=sandzguli_split
calls=16 0 
0 9010

fn=sandzguli_split
0 100
cfn=memcpy
calls=16 0 
0 4160
0 20
cfn=walk::walk
calls=16 0 
0 4730

fn=walk::walk
0 304
cfn=memset
calls=8 0 
0 4144
0 52
cfn=page::number::read_up_to
calls=8 0 
0 230

fn=page::number::read_up_to
0 80
cfn=page::number::read_up_to'2
calls=3 0 
0 150

fn=page::number::read_up_to'2
0 150

fn=memcpy
0 4160

fn=memset
0 4144

totals: 9010
";

#[test]
fn counts_are_read() {
    let profile = parse(WRITTEN, "/program").expect("counts");
    let expected = Profile {
        instructions: 100 + 20 + 304 + 52 + 80 + 150,
        calls: 16 + 8,
        bytes: 16 * 256 + 8 * 512,
    };
    assert_eq!(profile, expected);
}

#[test]
fn other_words_are_faults() {
    let elsewhere = WRITTEN.replace("fn=memset\n0", "ob=/lib/libc.so.6\nfn=memset\n0");
    let words = parse(&elsewhere, "/program").expect_err("memset is of another object");
    assert!(words.starts_with("memset of /lib/libc.so.6"), "{words}");
    for (line, other) in [
        ("0 304", "0 305"),
        ("0 304", "0 many"),
        ("calls=8 ", "calls=many "),
        ("totals: 9010", ""),
    ] {
        let altered = WRITTEN.replace(line, other);
        assert!(parse(&altered, "/program").is_err(), "{other}");
    }
    assert!(parse("totals: 0", "/program").is_err());
}

fn columns(figures: [u64; 2]) -> Columns {
    let profile = |instructions| Profile {
        instructions,
        calls: 10,
        bytes: 20_480,
    };
    let [check, split] = figures.map(profile);
    vec![("check, 5".into(), check), ("split, 250".into(), split)]
}

#[test]
fn figures_above_the_newest_row_are_found() {
    let [set, ..] = &instructions::SETS;
    let document = instructions::tables(set, &columns([1_000, 2_000_000]));
    let newer = document.replace(
        "| 2,000,000 |",
        "| 2,000,000 |\n| newer | 1,000 | 3,000,000 |",
    );
    let found = |figures, document: &str| instructions::excesses(set, &columns(figures), document);
    assert_eq!(found([1_010, 2_020_000], &document), Ok(vec![]));
    assert_eq!(
        found([1_011, 2_020_001], &document).map(|lines| lines.len()),
        Ok(2)
    );
    let line = "Instructions, split, 250: 3,030,001, more than 1 % above 3,000,000";
    assert_eq!(found([900, 3_030_001], &newer), Ok(vec![line.to_string()]));
    assert!(found([1, 1], &document.replace("split, 250", "split, 40")).is_err());
    assert!(found([1, 1], &document.replace("1,000", "many")).is_err());
}

#[test]
fn pages_have_their_records() {
    for records in [5, 40, 250] {
        let pages = instructions::pages(&records.to_string()).expect("pages of this size");
        assert_eq!(pages.len(), 10);
        for page in pages {
            let answer = answer::answer(&page).expect("the Rust is foreseen");
            assert!(matches!(answer.outcome, Outcome::Accepted(_)));
            assert_eq!(answer.records, records);
        }
    }
}

#[test]
fn pages_have_their_values() {
    let [_, set, ..] = &instructions::SETS;
    for name in set.pages {
        let pages = instructions::pages(name).expect("a page with these values");
        let (count, length) = name.split_once(" of ").expect("a count and a length");
        let length: usize = length.parse().expect("a length");
        for page in pages {
            let worked = answer::work(&page).expect("the Rust is foreseen");
            assert!(matches!(worked.outcome, Outcome::Accepted(_)));
            let [Record::Selector { matchers, .. }] = worked.records.as_slice() else {
                panic!("{name}: one selector");
            };
            assert_eq!(matchers.len().to_string(), count);
            let is_long = |matcher: &Matcher| matcher.value.text.len() == length;
            assert!(matchers.iter().all(is_long), "{name}");
        }
    }
    assert!(instructions::pages("7").is_none());
}

#[test]
fn pages_have_their_fills() {
    for name in instructions::FILLS.pages {
        let pages = instructions::pages(name).expect("a page with these fills");
        let [page] = pages.as_slice() else {
            panic!("{name}: one page");
        };
        let worked = answer::work(page).expect("the Rust is foreseen");
        assert!(matches!(worked.outcome, Outcome::Accepted(_)), "{name}");
        let fills: Vec<_> = worked.records.iter().flat_map(Record::numbers).collect();
        let fractions = fills.iter().filter(|(_, fill)| fill.fraction().is_some());
        let expected = if name.starts_with("fractions") {
            120
        } else {
            0
        };
        assert_eq!((fills.len(), fractions.count()), (120, expected), "{name}");
    }
    assert!(instructions::pages("whole, 2 digits").is_none());
}

#[test]
fn pages_have_their_calls() {
    let [_, _, set, ..] = &instructions::SETS;
    let [name] = set.pages else {
        panic!("one page");
    };
    let pages = instructions::pages(name).expect("a page with these calls");
    let worked = answer::work(&pages[0]).expect("the Rust is foreseen");
    assert!(matches!(worked.table, Outcome::Accepted(_)));
    let is_call = |record: &&Record| matches!(record, Record::Call { .. });
    assert_eq!(worked.records.iter().filter(is_call).count(), 255);
    assert!(name.starts_with("255 ") && pages.len() == 1);
}

/// Both checks take every page of the set, so that a difference of their counts is the rule's.
#[test]
fn pages_have_their_limits() {
    let [_, _, _, set, ..] = &instructions::SETS;
    let mut counts = Vec::new();
    for name in set.pages {
        let mut limits = 0;
        for page in instructions::pages(name).expect("pages of this name") {
            let worked = answer::work(&page).expect("the Rust is foreseen");
            assert!(matches!(worked.operators, Outcome::Accepted(_)), "{name}");
            assert_eq!(worked.operators, worked.outcome);
            limits += worked
                .records
                .iter()
                .filter(|record| is_limited(record))
                .count();
        }
        counts.push(limits);
    }
    assert_eq!(counts.last(), Some(&127));
}

/// Nested calls that both generations accept, and such that the newer accepts: the older refuses their first call.
#[test]
fn pages_have_their_generations() {
    let [.., both, newer] = &instructions::SETS;
    for (set, answer, calls) in [
        (both, Generations::Both, 255),
        (newer, Generations::Newer, 63),
    ] {
        let [name] = set.pages else {
            panic!("one page");
        };
        let pages = instructions::pages(name).expect("a page with these calls");
        let worked = answer::work(&pages[0]).expect("the Rust is foreseen");
        assert_eq!(Generations::of(worked.older, worked.newer), answer);
        assert!(matches!(worked.table, Outcome::Accepted(_)), "{name}");
        let is_call = |record: &&Record| matches!(record, Record::Call { .. });
        assert_eq!(worked.records.iter().filter(is_call).count(), calls);
        assert!(name.starts_with(&calls.to_string()) && pages.len() == 1);
    }
}
