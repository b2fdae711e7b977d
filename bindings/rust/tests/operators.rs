//! `check_operators` says what `check` says of a page and of the parameters of `limitk` and `limit_ratio` as pages of
//! their own: on the kept list, and on parameters of every kind.

mod support;

use sandzguli::page::{Code, Function, LabelModifier, Page, Record};
use sandzguli::{check, check_operators, check_table, Kind, Refusal, Rule};
use std::collections::BTreeSet;

const LIMITS: [Code; 2] = [Code::Limitk, Code::LimitRatio];

/// How many operands a record takes.
fn operands(record: &Record) -> usize {
    match record {
        Record::Number(_) | Record::String(_) | Record::Selector { .. } => 0,
        Record::Binary { .. } => 2,
        Record::Aggregate { arguments, .. } | Record::Call { arguments, .. } => *arguments,
        _ => 1,
    }
}

fn is_limit(record: &Record) -> bool {
    matches!(record, Record::Aggregate { code, .. } if LIMITS.contains(code))
}

/// The first limit, among so many records, whose parameter is no scalar to check as a page of its own.
fn first_unlike(records: &[Record], end: usize) -> Option<usize> {
    let mut stack: Vec<Vec<Record>> = Vec::new();
    for (index, record) in records.iter().take(end).enumerate() {
        let taken = stack.split_off(stack.len() - operands(record));
        let parameter = taken.first().filter(|_| is_limit(record));
        let kind = parameter.map(|part| check(&Page::from(part.clone()).to_bytes()));
        if kind.is_some_and(|kind| kind != Ok(Kind::Scalar)) {
            return Some(index);
        }
        let mut made = taken.concat();
        made.push(record.clone());
        stack.push(made);
    }
    None
}

/// The records of a page that can be read, up to the first one that cannot.
fn readable(page: &[u8]) -> Vec<Record> {
    let mut lengths = (0..=page.len()).rev();
    let read = lengths.find_map(|length| Page::read(&page[..length]).ok());
    read.map_or(Vec::new(), |page| page.records)
}

/// The first record that is refused decides. Of pages that are not refused with 42 the short ones are tried.
#[test]
fn the_kept_list_is_judged_by_check_alone() {
    let mut refused = 0;
    for entry in support::entries() {
        let checked = check(&entry.page);
        let end = checked.map_or_else(|refusal| refusal.record, |_| usize::MAX);
        let is_refused = matches!(check_operators(&entry.page), Err(refusal) if refusal.rule == Rule::LimitParameter);
        if !is_refused && entry.page.len() > 60 {
            continue;
        }
        let unlike = first_unlike(&readable(&entry.page), end);
        let expected = unlike.map_or(checked, |record| {
            Err(Refusal::new(Rule::LimitParameter, record))
        });
        assert_eq!(check_operators(&entry.page), expected);
        refused += usize::from(unlike.is_some());
    }
    assert!(refused > 400, "{refused}");
}

/// Every rule but those of buffers and of the function table occurs on the kept list.
#[test]
fn the_operators_check_has_one_rule_more_than_check() {
    let mut seen = BTreeSet::new();
    for entry in support::entries() {
        let outcome = check_operators(&entry.page);
        seen.insert(outcome.map_or_else(|refusal| refusal.number(), |_| 0));
    }
    let numbers = Rule::ALL.iter().map(|rule| rule.number());
    let never = [
        Rule::OutputTooShort,
        Rule::UnknownFunction,
        Rule::UnlikeSignature,
    ]
    .map(Rule::number);
    let possible = numbers.filter(|number| !never.contains(number));
    assert!(seen.into_iter().eq([0].into_iter().chain(possible)));
}

/// An expression of each kind, by a record of its own and by a call that carries it, bare and in brackets.
fn parameters() -> Vec<(Kind, Vec<Record>)> {
    let up = Record::selector("up", []);
    let mut parameters = vec![
        (Kind::Vector, vec![up.clone()]),
        (Kind::Scalar, vec![Record::whole(1)]),
        (Kind::Matrix, vec![up, Record::Range(1)]),
        (Kind::String, vec![Record::string("a")]),
    ];
    for kind in Kind::ALL {
        let call = Record::call(Function::fixed("f", [], kind), 0);
        parameters.push((kind, vec![call]));
    }
    let bracketed: Vec<_> = parameters
        .iter()
        .map(|(kind, records)| (*kind, [records.as_slice(), &[Record::Paren]].concat()))
        .collect();
    parameters.extend(bracketed);
    parameters
}

/// An aggregate of these operands, and its place.
fn aggregate(code: Code, grouping: LabelModifier, operands: &[&[Record]]) -> (Vec<u8>, usize) {
    let mut records = operands.concat();
    let place = records.len();
    records.push(Record::aggregate(code, grouping, operands.len()));
    (Page::from(records).to_bytes(), place)
}

#[test]
fn the_kind_of_the_parameter_decides() {
    let up = [Record::selector("up", [])];
    for code in LIMITS {
        for grouping in [LabelModifier::None, LabelModifier::by(["x"])] {
            for (kind, parameter) in parameters() {
                let (page, place) = aggregate(code, grouping.clone(), &[&parameter, &up]);
                let expected = match kind {
                    Kind::Scalar => Ok(Kind::Vector),
                    _ => Err(Refusal::new(Rule::LimitParameter, place)),
                };
                assert_eq!(check(&page), Ok(Kind::Vector));
                assert_eq!(check_operators(&page), expected, "{parameter:?}");
            }
        }
    }
}

/// 25 of the operand comes first, and other aggregators have 25 of their parameter, or none.
#[test]
fn other_refusals_are_those_of_check() {
    let parameters = parameters();
    for code in Code::ALL {
        for (_, parameter) in &parameters {
            for (kind, operand) in &parameters {
                if LIMITS.contains(&code) && *kind == Kind::Vector {
                    continue;
                }
                let (page, _) = aggregate(code, LabelModifier::None, &[parameter, operand]);
                assert_eq!(check_operators(&page), check(&page));
            }
        }
    }
}

/// Neither the operators check nor the table check asks what the other does.
#[test]
fn the_table_is_not_asked() {
    let unknown = Record::call(Function::fixed("f", [], Kind::Vector), 0);
    let page = Page::from([unknown]).to_bytes();
    assert_eq!(check_operators(&page), Ok(Kind::Vector));
    assert_eq!(
        check_table(&page),
        Err(Refusal::new(Rule::UnknownFunction, 0))
    );
    let up = [Record::selector("up", [])];
    let (page, place) = aggregate(Code::Limitk, LabelModifier::None, &[&up, &up]);
    assert_eq!(check_table(&page), Ok(Kind::Vector));
    assert_eq!(
        check_operators(&page),
        Err(Refusal::new(Rule::LimitParameter, place))
    );
}
