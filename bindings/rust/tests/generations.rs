//! The checks of the two server generations refuse what is unlike their tables, as docs/PAGE.md has these, and else say
//! what `check` says; `generations` tells which of them accept a page, and what is said of its answers is true.

#[path = "table/called.rs"]
mod called;
#[allow(dead_code)]
#[path = "page_document/document.rs"]
mod document;
#[path = "table/law.rs"]
mod law;
mod support;
#[allow(dead_code)]
#[path = "page_document/tables.rs"]
mod tables;
#[path = "table/unlike.rs"]
mod unlike;

use called::{called, last};
use law::{expected, signed};
use sandzguli::page::{Code, Function, Page, Record};
use sandzguli::{check, check_newer, check_older, check_table, generations};
use sandzguli::{Generations, Kind, Refusal, Rule};
use std::collections::BTreeSet;
use tables::Functions;
use unlike::unlike;

/// The name that the older generation has alone, and the newer's for the same function.
const HOLT_WINTERS: &str = "holt_winters";
const SMOOTHING: &str = "double_exponential_smoothing";

type Check = fn(&[u8]) -> Result<Kind, Refusal>;

/// Both checks, each with its table.
fn checks() -> [(Check, Functions); 2] {
    let [older, newer] = tables::generations();
    [
        (check_older, older.functions),
        (check_newer, newer.functions),
    ]
}

/// Whatever the arguments, of which there may be none.
#[test]
fn a_signature_with_one_other_field_is_refused() {
    let mut refused = 0;
    for (check, table) in checks() {
        for (name, signature) in &table {
            for other in unlike(signature) {
                let page = called(&Function::new(name, other));
                let refusal = Refusal::new(Rule::UnlikeSignature, last(&page));
                assert_eq!(check(&page.to_bytes()), Err(refusal), "{name}");
                let call = Page::from([page.records[last(&page)].clone()]);
                let refusal = Refusal::new(Rule::UnlikeSignature, 0);
                assert_eq!(check(&call.to_bytes()), Err(refusal), "{name}");
                refused += 1;
            }
        }
    }
    assert!(refused > 2 * 77 * 25, "{refused} signatures");
}

/// Every name cut short, with a letter more before or after it, in capitals, and twice.
#[test]
fn names_that_are_near_are_refused() {
    let mut refused = 0;
    for (check, table) in checks() {
        for (name, signature) in &table {
            let mut near: Vec<_> = (1..name.len()).map(|end| name[..end].to_string()).collect();
            let letters = ('a'..='z').chain(['_']);
            near.extend(
                letters.flat_map(|more| [format!("{name}{more}"), format!("{more}{name}")]),
            );
            near.extend([name.to_uppercase(), name.repeat(2)]);
            for other in near.into_iter().filter(|other| !table.contains_key(other)) {
                let page = called(&Function::new(&other, signature.clone()));
                let refusal = Refusal::new(Rule::UnknownFunction, last(&page));
                assert_eq!(check(&page.to_bytes()), Err(refusal), "{other}");
                refused += 1;
            }
        }
    }
    assert!(refused > 2 * 77 * 50, "{refused} names");
}

/// On the kept list, and on its pages with the table's signatures.
#[test]
fn both_checks_are_check_but_for_calls_that_are_unlike() {
    for (check, table) in checks() {
        let mut seen = BTreeSet::new();
        let table = |name: &str| table.get(name).cloned();
        for entry in support::entries() {
            let pages = [Some(entry.page.clone()), signed(&entry.page, table)];
            for page in pages.into_iter().flatten() {
                let outcome = check(&page);
                assert_eq!(outcome, expected(&page, table), "{page:x?}");
                seen.insert(outcome.map_or_else(|refusal| refusal.number(), |_| 0));
            }
        }
        let never = [
            Rule::OutputTooShort,
            Rule::NoDeclaredKinds,
            Rule::LimitParameter,
        ];
        let rules = Rule::ALL.iter().filter(|rule| !never.contains(rule));
        let possible = rules.map(|rule| rule.number());
        assert!(seen.into_iter().eq([0].into_iter().chain(possible)));
    }
}

/// What adds calls to a page: of neither name of the one function, of either, and of both.
fn additions() -> [Vec<u8>; 5] {
    let [_, (_, newer)] = checks();
    let call = |name: &&str| {
        let call = called(&Function::new(*name, newer[SMOOTHING].clone()));
        call.then(Record::binary(Code::Add)).to_bytes()
    };
    let names: [&[&str]; 5] = [
        &[],
        &[HOLT_WINTERS],
        &[SMOOTHING],
        &[HOLT_WINTERS, SMOOTHING],
        &[SMOOTHING, HOLT_WINTERS],
    ];
    names.map(|names| names.iter().flat_map(call).collect())
}

/// Whether an accepted page calls a function.
fn calls(page: &[u8], name: &str) -> bool {
    let records = Page::read(page).expect("the page is accepted").records;
    let is_called =
        |record: &Record| matches!(record, Record::Call { function, .. } if function.name == name);
    records.iter().any(is_called)
}

/// What holds of a page that some generation accepts.
fn assert_accepted(page: &[u8], answer: Generations) {
    let kind = check(page);
    assert!(kind.is_ok(), "check accepts it");
    let is_of_older = calls(page, HOLT_WINTERS);
    if answer.older_accepts() {
        assert_eq!(check_older(page), kind);
        assert_eq!(check_table(page).is_ok(), !is_of_older);
    }
    if answer.newer_accepts() {
        assert_eq!(check_newer(page), kind);
        assert_eq!(check_table(page), kind);
    }
    let names = [is_of_older, calls(page, SMOOTHING)];
    let alone = [Generations::Older, Generations::Newer].map(|each| each == answer);
    assert_eq!(names, alone, "{answer}");
}

/// Whether a name stands in a page, be it in a call or not.
fn has(page: &[u8], name: &str) -> bool {
    page.windows(name.len()).any(|part| part == name.as_bytes())
}

/// What the answer says of a page is what the two checks say, and what is told of them holds.
fn assert_told(page: &[u8], answer: Generations) {
    let outcomes = [check_older(page), check_newer(page)];
    let accepting = [answer.older_accepts(), answer.newer_accepts()];
    assert_eq!(outcomes.map(|outcome| outcome.is_ok()), accepting);
    if answer != Generations::Neither {
        assert_accepted(page, answer);
    }
    if ![HOLT_WINTERS, SMOOTHING].iter().any(|name| has(page, name)) {
        assert_eq!(outcomes[0], outcomes[1]);
    }
}

/// On the kept list, with calls of either name added too.
#[test]
fn answers_are_those_of_both_checks() {
    let mut counts = [0; 4];
    let additions = additions();
    for entry in support::entries() {
        for addition in &additions {
            let page = [entry.page.as_slice(), addition].concat();
            let answer = generations(&page);
            assert_told(&page, answer);
            counts[answer.number() as usize] += 1;
        }
    }
    assert!(counts.iter().all(|count| *count > 2000), "{counts:?}");
}

/// What no page is: cut short at every byte, too long, or of bytes that are no record.
#[test]
fn any_byte_string_has_an_answer() {
    let page = called(&Function::fixed("time", [], Kind::Scalar)).to_bytes();
    for length in 0..page.len() {
        assert_eq!(generations(&page[..length]), Generations::Neither);
    }
    assert_eq!(generations(&page), Generations::Both);
    for byte in 0..=u8::MAX {
        assert_eq!(generations(&[byte]), Generations::Neither);
        assert_eq!(generations(&vec![byte; 1 << 20]), Generations::Neither);
    }
}
