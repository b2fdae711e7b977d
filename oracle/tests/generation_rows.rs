//! Every row of the tables of the two generations (document 02, No. 13): near signatures and near names are refused,
//! and the pages of the request tell each table that is another in one row.

#[path = "afterwards/table.rs"]
mod afterwards;

use afterwards::by_records;
use oracle::answer::{self, Outcome, Worked};
use oracle::functions::near::{self, Unlike};
use oracle::functions::spelling::near as near_names;
use oracle::functions::{self, Table};
use oracle::generate::stream;
use oracle::generations::Generation;
use oracle::page::read::is_function_name;
use oracle::page::record::{Record, Signature, Text};
use oracle::page::write;
use oracle::refusal::{UNKNOWN_FUNCTION, UNLIKE_SIGNATURE};

fn work(page: &[u8]) -> Worked<'_> {
    answer::work(page).expect("the Rust is foreseen")
}

fn outcomes(worked: &Worked) -> [Outcome; 2] {
    [worked.older, worked.newer]
}

fn refused(number: u8) -> Outcome {
    Outcome::Refused { number, record: 0 }
}

/// A call on an empty stack.
fn bare(carried: &Signature<'static>) -> Worked<'static> {
    let call = Record::Call {
        signature: carried.clone(),
        arguments: carried.kinds.len(),
    };
    let page = write::page(&[call]).leak();
    work(page)
}

/// Every function of a table with every signature that is unlike its own in one way, and every near spelling of its
/// name that a page can carry.
#[test]
fn near_signatures_and_near_names_are_refused() {
    let [mut unlike, mut unknown] = [0; 2];
    for generation in Generation::ALL {
        let found = |carried: &Signature<'static>| outcomes(&bare(carried))[generation as usize];
        for known in generation.table().values() {
            let near = Unlike::ALL.map(|way| near::signatures(known, way)).concat();
            for carried in near {
                assert_eq!(found(&carried), refused(UNLIKE_SIGNATURE), "{carried:?}");
                unlike += 1;
            }
            let mut names = near_names(&known.name.text);
            names.retain(|name| {
                is_function_name(name) && !generation.table().contains_key(name.as_str())
            });
            for name in names.iter().step_by(3) {
                let carried = Signature {
                    name: Text::from(name.as_str()),
                    ..known.clone()
                };
                assert_eq!(found(&carried), refused(UNKNOWN_FUNCTION), "{name}");
                unknown += 1;
            }
        }
    }
    assert!(unlike > 4_000 && unknown > 3_000, "{unlike}, {unknown}");
}

/// Tables that are another than a generation's in one row: one is missing, has another signature, or is let in.
fn altered(generation: Generation) -> Vec<(String, Table)> {
    let table = generation.table();
    let mut altered = Vec::new();
    for (name, known) in table {
        let mut without = table.clone();
        without.remove(name);
        altered.push((format!("without {name}"), without));
        for way in Unlike::ALL {
            for other in near::signatures(known, way) {
                let mut with_other = table.clone();
                with_other.insert(name, other);
                altered.push((format!("{name}, {}", way.words()), with_other));
            }
        }
    }
    let others = functions::signatures().chain([generation.other().own()]);
    for other in others {
        let name = other.name.text.as_ref();
        if !table.contains_key(name) {
            let mut with_more = table.clone();
            with_more.insert(name, other.clone());
            altered.push((format!("with {name}"), with_more));
        }
    }
    altered
}

/// The pages of this request alone tell each such table from the right one.
#[test]
fn every_row_of_the_tables_is_told() {
    let pages: Vec<Vec<u8>> = stream::of_generations().map(|sample| sample.page).collect();
    let worked: Vec<Worked> = pages.iter().map(|page| work(page)).collect();
    for generation in Generation::ALL {
        let altered = altered(generation);
        assert!(altered.len() > 2_000, "{}", altered.len());
        for (words, table) in altered {
            let tells = |worked: &Worked| {
                by_records(worked, &table) != outcomes(worked)[generation as usize]
            };
            assert!(worked.iter().any(tells), "{generation:?}: {words}");
        }
    }
}
