//! The function table (document 02, No. 2): it is the compiled one, and whole; what is generated has the outcome that
//! it was made for, and the sentences of the request are true of the oracle's answers.

#[path = "afterwards/table.rs"]
mod afterwards;

use afterwards::by_records;
use oracle::answer::{self, Answer, Outcome};
use oracle::functions::near::{self, Unlike};
use oracle::functions::spelling::{near_unknown, strangers};
use oracle::functions::{self, names, signatures};
use oracle::generate::functions::{fixed, nested_abs, random};
use oracle::generate::{stream, Made};
use oracle::hex;
use oracle::page::record::{Extra, Kind, Record, Signature, Text};
use oracle::page::write;
use oracle::random::Random;
use promql_parser::door;
use std::collections::{BTreeSet, HashSet};

const SOURCE: &str = include_str!("../promql-parser/src/parser/function.rs");

fn answer(page: &[u8]) -> Answer {
    answer::answer(page).expect("the Rust is foreseen")
}

/// Every text of the source that the compiled table knows, wherever it stands.
fn known_texts() -> BTreeSet<&'static str> {
    let texts = SOURCE
        .lines()
        .flat_map(|line| line.split('"').skip(1).step_by(2));
    texts
        .filter(|text| door::get_function(text).is_some())
        .collect()
}

#[test]
fn the_table_is_the_compiled_one_and_whole() {
    let written: BTreeSet<_> = functions::written_names().collect();
    assert_eq!(functions::written_names().count(), written.len());
    assert!(names().eq(written.iter().copied()));
    assert!(names().eq(known_texts()));
    assert_eq!(names().count(), 91);
    for name in names() {
        let function = door::get_function(name).expect("the compiled table has it");
        assert_eq!(function.name, name);
    }
}

/// What the request says of the table.
#[test]
fn the_table_has_the_sizes_that_are_told() {
    let letters: usize = names().map(str::len).sum();
    let longest = names().map(str::len).max();
    let most_kinds = signatures().map(|each| each.kinds.len()).max();
    assert_eq!((letters, longest, most_kinds), (824, Some(28), Some(5)));
    let begins = |name: &str| {
        names()
            .filter(|other| *other != name && other.starts_with(name))
            .count()
    };
    assert_eq!(names().map(begins).sum::<usize>(), 18);
    let uppers: HashSet<u64> = signatures()
        .filter_map(|each| match each.extra {
            Extra::Upper(upper) => Some(upper),
            _ => None,
        })
        .collect();
    assert_eq!(uppers, HashSet::from([1, 9]));
    let without_kinds: Vec<_> = signatures().filter(|each| each.kinds.is_empty()).collect();
    assert_eq!(without_kinds.len(), 6);
    assert!(without_kinds.iter().all(|each| each.extra == Extra::Fixed));
    let longest_bytes = signatures().map(|each| functions::bytes(each).len()).max();
    assert_eq!(longest_bytes, Some(8));
}

#[test]
fn generated_pages_have_their_outcome() {
    let random_pages = &mut Random::new(20);
    let mut assert_made = |made: Made| {
        let page = &made.page;
        assert_eq!(answer(page).table, made.expected, "{}", hex::text(page));
    };
    fixed().for_each(&mut assert_made);
    (0..20_000).for_each(|_| assert_made(random(random_pages)));
}

/// The walk that asks the table between a call's fields and its operands gives what the records tell afterwards. 29 is
/// never said.
#[test]
fn both_ways_to_ask_the_table_agree() {
    let random = &mut Random::new(21);
    let rounds = (0..100).flat_map(|_| stream::round(random));
    let pages: Vec<_> = stream::fixed()
        .chain(stream::short())
        .chain(rounds)
        .collect();
    let mut refused = [0; 2];
    for sample in &pages {
        let page = &sample.page;
        let worked = answer::work(page).expect("the Rust is foreseen");
        assert_eq!(
            worked.table,
            by_records(&worked, functions::table()),
            "{}",
            hex::text(page)
        );
        match worked.table {
            Outcome::Refused { number: 37, .. } => refused[0] += 1,
            Outcome::Refused { number: 38, .. } => refused[1] += 1,
            Outcome::Refused { number: 29, .. } => panic!("29: {}", hex::text(page)),
            outcome => assert_eq!(outcome, worked.outcome, "{}", hex::text(page)),
        }
    }
    assert!(refused.iter().all(|count| *count > 1000), "{refused:?}");
}

/// "For a page that passes, what was said of carried signatures holds of the table's": each call carries what the
/// compiled table has, so that the page with the table's signatures is the page itself.
#[test]
fn pages_that_pass_carry_the_tables_signatures() {
    let random = &mut Random::new(22);
    let mut calls = 0;
    for sample in (0..60).flat_map(|_| stream::round(random)) {
        let worked = answer::work(&sample.page).expect("the Rust is foreseen");
        let Outcome::Accepted(kind) = worked.table else {
            continue;
        };
        assert_eq!(worked.outcome, Outcome::Accepted(kind));
        let mut records = worked.records.clone();
        for record in &mut records {
            if let Record::Call { signature, .. } = record {
                let name = signature.name.text.as_ref();
                *signature = functions::signature(name).expect("a known name").clone();
                calls += 1;
            }
        }
        assert_eq!(write::page(&records), sample.page);
    }
    assert!(calls > 2000, "{calls}");
}

fn table_of(carried: &Signature<'static>, operands: &[Record<'static>]) -> Outcome {
    let call = Record::Call {
        signature: carried.clone(),
        arguments: carried.kinds.len(),
    };
    answer(&write::page(&[operands, &[call]].concat())).table
}

fn refused(number: u8) -> Outcome {
    Outcome::Refused { number, record: 0 }
}

/// Every name with every signature that is unlike its own in one way, and every near spelling of every name.
#[test]
fn near_signatures_and_near_names_are_refused() {
    let [mut unlike, mut unknown] = [0; 2];
    for known in signatures() {
        for way in Unlike::ALL {
            let near = near::signatures(known, way);
            assert_eq!(near.is_empty(), !way.is_possible(known));
            for carried in near {
                assert_eq!(near::unlike(&carried, known), Some(way));
                assert_eq!(table_of(&carried, &[]), refused(38));
                unlike += 1;
            }
        }
        for name in near_unknown(&known.name.text).iter().chain(&strangers()) {
            let carried = Signature {
                name: Text::from(name.as_str()),
                ..known.clone()
            };
            assert_eq!(table_of(&carried, &[]), refused(37), "{name}");
            unknown += 1;
        }
    }
    assert!(unlike > 2_500 && unknown > 7_000, "{unlike}, {unknown}");
}

/// "The literal exception as before": by name and first argument; with another signature 38 comes before.
#[test]
fn the_literal_exception_is_as_before() {
    for (name, number, is_excused) in [
        ("ln", "000000", true),
        ("ln", "00060501", true),
        ("ln", "00050501", false),
        ("exp", "0002", true),
        ("exp", "000000", false),
        ("log10", "0003", true),
        ("log2", "000101", true),
        ("abs", "0002", false),
    ] {
        let known = functions::signature(name).expect("a function of the table");
        let page = |signature: &Signature| {
            let mut page = hex::bytes(number);
            let call = Record::Call {
                signature: signature.clone(),
                arguments: 1,
            };
            write::record(&mut page, &call);
            page
        };
        let expected = match is_excused {
            true => Outcome::Accepted(Kind::Vector),
            false => Outcome::Refused {
                number: 30,
                record: 1,
            },
        };
        assert_eq!(answer(&page(known)).table, expected, "{name}");
        let other = Signature {
            result: Kind::Scalar,
            ..known.clone()
        };
        let unlike = Outcome::Refused {
            number: 38,
            record: 1,
        };
        assert_eq!(answer(&page(&other)).table, unlike, "{name}");
    }
}

#[test]
fn nested_calls_are_as_long_as_is_told() {
    let page = nested_abs();
    let answer = answer(&page);
    assert_eq!((page.len(), answer.records), (2_555, 256));
    assert_eq!(answer.table, Outcome::Accepted(Kind::Vector));
}
