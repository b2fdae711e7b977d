//! The function table: `signature` has the functions of the Rust's source and no others, `check_table` refuses what is
//! unlike it and otherwise answers as `check` does, and the builder makes calls that pass.

#[path = "table/called.rs"]
mod called;
#[path = "table/law.rs"]
mod law;
#[path = "table/rust.rs"]
mod rust;
mod support;
#[path = "table/unlike.rs"]
mod unlike;

use called::{called, last};
use law::{expected, signed};
use sandzguli::page::{Function, Page, Record};
use sandzguli::{check, check_table, signature, signature_into};
use sandzguli::{Refusal, Rule, SIGNATURE_BYTES};
use std::collections::BTreeSet;
use unlike::unlike;

/// The bytes of a signature, as a call record has them.
fn bytes(function: &Function) -> Vec<u8> {
    let record = Page::from([Record::call(function.clone(), 0)]).to_bytes();
    let behind_name = 2 + function.name.len();
    record[behind_name..record.len() - 1].to_vec()
}

#[test]
fn the_table_has_the_functions_of_the_rust() {
    let functions = rust::functions();
    assert_eq!(functions.len(), 91);
    for function in functions {
        let name = function.name.as_str();
        assert_eq!(
            signature(name).as_ref(),
            Some(&function.signature),
            "{name}"
        );
        assert_eq!(Function::known(name), Ok(function));
    }
}

/// Every name cut short, with a letter more before or after it, with a capital, and twice.
#[test]
fn the_table_has_no_names_beside_these() {
    let names: BTreeSet<_> = rust::functions()
        .into_iter()
        .map(|each| each.name)
        .collect();
    let mut unknown = 0;
    for name in &names {
        let mut near: Vec<_> = (0..name.len()).map(|end| name[..end].to_string()).collect();
        near.extend(
            ('!'..='~').flat_map(|more| [format!("{name}{more}"), format!("{more}{name}")]),
        );
        near.extend([
            name.to_uppercase(),
            name.repeat(2),
            format!("{name}\0"),
            format!("{name} "),
        ]);
        near.extend((0..name.len()).map(|place| name[place..].to_string()));
        for other in near.into_iter().filter(|other| !names.contains(other)) {
            assert_eq!(signature(&other), None, "{other}");
            let error = Function::known(&other).unwrap_err();
            assert_eq!(error.name, other);
            unknown += 1;
        }
    }
    assert!(unknown > 91 * 200, "{unknown} names");
}

/// Whatever no page holds as a name: long ones, ill-formed UTF-8, aggregators.
#[test]
fn any_byte_string_may_be_asked_about() {
    let longest = vec![b'a'; 1 << 20];
    let names: [&[u8]; 7] = [
        b"",
        b"sum",
        b"9a",
        b"\xff",
        b"abs\xff",
        "é".as_bytes(),
        &longest,
    ];
    for name in names {
        assert_eq!(signature(name), None);
        for room in [0, SIGNATURE_BYTES] {
            let mut out = vec![7; room];
            let refused = Err(Refusal::new(Rule::UnknownFunction, 0));
            assert_eq!(signature_into(name, &mut out), refused);
            assert_eq!(out, vec![7; room]);
        }
    }
}

/// Every room up to one byte more than the longest needs.
#[test]
fn signatures_are_written_as_calls_have_them() {
    let mut longest = 0;
    for function in rust::functions() {
        let expected = bytes(&function);
        longest = longest.max(expected.len());
        for room in 0..=SIGNATURE_BYTES + 1 {
            let mut out = vec![7; room];
            let outcome = signature_into(&function.name, &mut out);
            if room < expected.len() {
                assert_eq!(outcome, Err(Refusal::new(Rule::OutputTooShort, 0)));
                assert_eq!(out, vec![7; room]);
                continue;
            }
            let written = outcome.expect("there is room");
            assert_eq!(
                (written.kind, written.bytes),
                (function.signature.result, expected.len())
            );
            let rest = vec![7; room - expected.len()];
            assert_eq!(out, [expected.clone(), rest].concat());
        }
    }
    assert_eq!(longest, SIGNATURE_BYTES);
}

#[test]
fn calls_by_name_pass() {
    for function in rust::functions() {
        let page = called(&function);
        let arguments = function.signature.kinds.len();
        let call = Record::call_known(&function.name, arguments);
        assert_eq!(call.as_ref(), Ok(&page.records[last(&page)]));
        assert_eq!(check_table(&page.to_bytes()), Ok(function.signature.result));
    }
}

/// Whatever the arguments, of which there may be none.
#[test]
fn a_signature_with_one_other_field_is_refused() {
    let mut refused = 0;
    for function in rust::functions() {
        for other in unlike(&function.signature) {
            let page = called(&Function::new(&function.name, other.clone()));
            let refusal = Refusal::new(Rule::UnlikeSignature, last(&page));
            assert_eq!(
                check_table(&page.to_bytes()),
                Err(refusal),
                "{} {other:?}",
                function.name
            );
            let call = Page::from([page.records[last(&page)].clone()]);
            let refusal = Refusal::new(Rule::UnlikeSignature, 0);
            assert_eq!(check_table(&call.to_bytes()), Err(refusal));
            refused += 1;
        }
    }
    assert!(refused > 91 * 25, "{refused} signatures");
}

#[test]
fn an_unknown_name_comes_before_its_operands() {
    for function in rust::functions() {
        let misspelt = Function::new(format!("{}_", function.name), function.signature);
        let page = called(&misspelt);
        assert_eq!(check(&page.to_bytes()), Ok(misspelt.signature.result));
        let refusal = Refusal::new(Rule::UnknownFunction, last(&page));
        assert_eq!(check_table(&page.to_bytes()), Err(refusal));
        let call = Page::from([Record::call(misspelt, 16)]).to_bytes();
        assert_eq!(
            check_table(&call),
            Err(Refusal::new(Rule::UnknownFunction, 0))
        );
        assert_eq!(check(&call), Err(Refusal::new(Rule::OperandsMissing, 0)));
    }
}

/// On the kept list, and on its pages with the table's signatures.
#[test]
fn the_table_check_is_check_but_for_calls_that_are_unlike() {
    let mut seen = BTreeSet::new();
    let table = |name: &str| signature(name);
    for entry in support::entries() {
        for page in [Some(entry.page.clone()), signed(&entry.page, table)]
            .into_iter()
            .flatten()
        {
            let outcome = check_table(&page);
            assert_eq!(outcome, expected(&page, table), "{page:x?}");
            seen.insert(outcome.map_or_else(|refusal| refusal.number(), |_| 0));
        }
    }
    let numbers = Rule::ALL.iter().map(|rule| rule.number());
    let never = [
        Rule::OutputTooShort,
        Rule::NoDeclaredKinds,
        Rule::LimitParameter,
    ]
    .map(Rule::number);
    let possible = numbers.filter(|number| !never.contains(number));
    assert!(seen.into_iter().eq([0].into_iter().chain(possible)));
}
