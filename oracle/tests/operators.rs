//! The check that follows the operators document (document 02, No. 8): what is generated has the outcome that it was
//! made for, and the sentences of the request are true of the oracle's answers.

use oracle::answer::{self, Answer, Outcome, Worked};
use oracle::generate::operators::{fixed, nested_limits, pairs, random};
use oracle::generate::{stream, Made};
use oracle::operators::{is_limited, operands};
use oracle::page::record::{Kind, Record};
use oracle::page::write;
use oracle::random::Random;
use oracle::refusal::{self, LIMIT_PARAMETER};
use oracle::{chosen, hex, tree};
use std::collections::BTreeSet;

fn answer(page: &[u8]) -> Answer {
    answer::answer(page).expect("the Rust is foreseen")
}

#[test]
fn generated_pages_have_their_outcome() {
    let random_pages = &mut Random::new(80);
    let mut assert_made = |made: Made| {
        let page = &made.page;
        assert_eq!(answer(page).operators, made.expected, "{}", hex::text(page));
    };
    fixed().for_each(&mut assert_made);
    (0..20_000).for_each(|_| assert_made(random(random_pages)));
}

/// How many records before the one at this place, it included, make up the expression that it leaves.
fn size(records: &[Record], place: usize) -> usize {
    let places = operands(records, place).expect("accepted records have their operands");
    let sizes = places.into_iter().map(|operand| size(records, operand));
    1 + sizes.sum::<usize>()
}

/// The kind that the Rust gives the part of the page that is the parameter of the record at this place, as a page of its
/// own.
fn parameter_kind(records: &[Record], place: usize) -> Kind {
    let last = operands(records, place).expect("accepted records have their operands")[0];
    let part = &records[last + 1 - size(records, last)..=last];
    match answer(&write::page(part)).outcome {
        Outcome::Accepted(kind) => kind,
        outcome => panic!("a parameter is an expression: {outcome:?}"),
    }
}

/// The first limitk or limit_ratio of those that document 01 accepts whose parameter is no scalar by itself; otherwise
/// document 01's outcome.
fn by_records(worked: &Worked) -> Outcome {
    let accepted = &worked.records[..worked.kinds.len()];
    let mut places = (0..accepted.len()).filter(|place| is_limited(&accepted[*place]));
    let refused = places.find(|place| parameter_kind(accepted, *place) != Kind::Scalar);
    refused.map_or(worked.outcome, |record| Outcome::Refused {
        number: LIMIT_PARAMETER,
        record,
    })
}

fn samples(seed: u64, rounds: usize) -> Vec<Vec<u8>> {
    let random = &mut Random::new(seed);
    let rounds = (0..rounds).flat_map(|_| stream::round(random));
    let samples = stream::fixed().chain(stream::short()).chain(rounds);
    samples.map(|sample| sample.page).collect()
}

/// The walk that asks on its way gives what the records tell afterwards; and else it is document 01's outcome.
#[test]
fn both_ways_to_ask_about_parameters_agree() {
    let mut refused = 0;
    for page in samples(81, 100) {
        let worked = answer::work(&page).expect("the Rust is foreseen");
        let operators = worked.operators;
        assert_eq!(operators, by_records(&worked), "{}", hex::text(&page));
        match operators {
            Outcome::Refused { number: 42, .. } => refused += 1,
            _ => assert_eq!(operators, worked.outcome, "{}", hex::text(&page)),
        }
    }
    assert!(refused > 3_000, "{refused}");
}

/// Every aggregator on every pair of expressions: only limitk and limit_ratio are judged otherwise, and only where
/// document 01 accepts them with a parameter that is no scalar.
#[test]
fn every_pair_of_expressions_is_judged() {
    let mut counts = [0; 3];
    for page in pairs() {
        let worked = answer::work(&page).expect("the Rust is foreseen");
        let last = worked.records.len() - 1;
        let is_accepted = worked.outcome == Outcome::Accepted(Kind::Vector);
        let is_faulty = is_limited(&worked.records[last])
            && is_accepted
            && parameter_kind(&worked.records, last) != Kind::Scalar;
        let expected = match is_faulty {
            // A parameter or an operand may be a limitk itself, but then a good one.
            true => Outcome::Refused {
                number: LIMIT_PARAMETER,
                record: last,
            },
            false => worked.outcome,
        };
        assert_eq!(worked.operators, expected, "{}", hex::text(&page));
        counts[usize::from(is_accepted) + usize::from(is_faulty)] += 1;
    }
    assert!(counts.iter().all(|count| *count > 500), "{counts:?}");
}

/// "In the added check only": check, copy and both texts take what it refuses with 42, and the check with the function
/// table does not know the number.
#[test]
fn only_the_added_check_gives_42() {
    let mut accepted = 0;
    for page in samples(82, 40) {
        let answer = answer(&page);
        for outcome in [answer.outcome, answer.table] {
            assert!(!matches!(outcome, Outcome::Refused { number: 42, .. }));
        }
        let is_refused = matches!(answer.operators, Outcome::Refused { number: 42, .. });
        if is_refused && answer.outcome == Outcome::Accepted(Kind::Vector) {
            assert!(!answer.copy.is_empty() && !answer.canonical.is_empty());
            accepted += 1;
        }
    }
    assert!(accepted > 500, "{accepted}");
}

/// "When that parameter is no scalar": by its kind, not by what it is. A page that passes keeps passing where another
/// scalar stands as the parameter, and is refused where any other kind does.
#[test]
fn the_kind_of_the_parameter_decides() {
    let random = &mut Random::new(83);
    let scalars = [
        "0002",
        "000001 08",
        "000001 000002 090100",
        "0b016600000100",
    ];
    let others = ["0202757000", "0202757000 0301", "010161", "0b016600000000"];
    let mut tried = 0;
    for sample in (0..40).flat_map(|_| stream::round(random)) {
        let worked = answer::work(&sample.page).expect("the Rust is foreseen");
        let records = &worked.records;
        let Some(last) = records.len().checked_sub(1) else {
            continue;
        };
        let is_accepted = matches!(worked.operators, Outcome::Accepted(_));
        if !is_accepted || !is_limited(&records[last]) || records.len() > 200 {
            continue;
        }
        let operand = &records[last - size(records, last - 1)..];
        for (parameters, is_faulty) in [(scalars, false), (others, true)] {
            for parameter in parameters {
                let page = [hex::bytes(parameter), write::page(operand)].concat();
                let expected = match is_faulty {
                    true => Outcome::Refused {
                        number: LIMIT_PARAMETER,
                        record: answer(&page).records - 1,
                    },
                    false => Outcome::Accepted(Kind::Vector),
                };
                assert_eq!(answer(&page).operators, expected, "{}", hex::text(&page));
                tried += 1;
            }
        }
    }
    assert!(tried > 1_000, "{tried}");
}

/// "Its kind refusals" are document 01's eight and 42; the numbers of the check are check's and 42.
#[test]
fn the_check_has_one_number_more_than_check() {
    let check: BTreeSet<u8> = refusal::of_calls().filter(|number| *number != 5).collect();
    let operators: BTreeSet<u8> = refusal::of_operators_check().collect();
    let more: Vec<u8> = operators.difference(&check).copied().collect();
    assert_eq!(more, [LIMIT_PARAMETER]);
    assert!(check.is_subset(&operators));
}

/// Codes 29 and 30 are the two that the request names.
#[test]
fn the_codes_are_limitk_and_limit_ratio() {
    assert_eq!([29, 30].map(tree::word), ["limitk", "limit_ratio"]);
    assert_eq!(chosen::of_operators().len(), 31);
}

#[test]
fn nested_limits_are_as_long_as_is_told() {
    let page = nested_limits();
    let answer = answer(&page);
    assert_eq!((page.len(), answer.records), (894, 255));
    assert_eq!(answer.operators, Outcome::Accepted(Kind::Vector));
}
