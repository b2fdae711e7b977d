//! Every row of the refusal table, every bench example and every page of the readings has its answer.

use oracle::answer::{answer, Domain, Outcome};
use oracle::chosen::Row;
use oracle::{chosen, hex, refusal};

#[test]
fn every_chosen_page_has_its_answer() {
    let rows = chosen::rows().chain(chosen::outside());
    let differences: Vec<String> = rows.filter_map(|row| row.difference()).collect();
    assert!(differences.is_empty(), "{}", differences.join("\n"));
}

#[test]
fn every_chosen_page_is_inside_the_domain() {
    for row in chosen::rows() {
        let domain = answer(&row.bytes()).expect("the Rust is foreseen").domain;
        assert_eq!(domain, Domain::Inside, "{}", row.words);
    }
}

/// Their patterns are not covered (document 02, No. 7), or 41 would say so.
#[test]
fn pages_outside_the_domain_have_a_flag_that_is_believed() {
    let domain = |row: &Row| answer(&row.bytes()).expect("the Rust is foreseen").domain;
    let mut untrue = 0;
    for row in chosen::outside() {
        let domain = domain(row);
        assert_ne!(domain, Domain::Inside, "{}", row.words);
        untrue += usize::from(domain == Domain::FlagUntrue);
    }
    let not_taken = chosen::outside().count() - untrue;
    assert!(untrue > 20 && not_taken > 8, "{untrue}, {not_taken}");
}

#[test]
fn the_refusal_table_has_a_row_for_each_number() {
    let table = chosen::refusal_table();
    let numbers = table.iter().map(|row| {
        let (number, _) = row.words.split_once(": ").expect("a number and words");
        number.parse::<u8>().expect("a number")
    });
    assert!(numbers.eq(refusal::numbers()));
}

#[test]
fn a_copy_longer_than_a_page_is_no_page() {
    let page = hex::bytes("(023b 61*59; 00)*3; (023a 61*58; 00)*125; (090600)*127;");
    let copy = answer(&page).expect("the Rust is foreseen").copy;
    assert_eq!((page.len(), copy.len()), (8192, 8827));
    let outcome = answer(&copy).expect("the Rust is foreseen").outcome;
    let refused = Outcome::Refused {
        number: 3,
        record: 0,
    };
    assert_eq!(outcome, refused);
}
