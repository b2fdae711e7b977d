//! Pages with the tables of the two generations (document 02, No. 13): what is generated has the outcomes that it was
//! made for, and the sentences of the request are true of the oracle's answers.

#[path = "afterwards/table.rs"]
mod afterwards;

use afterwards::by_records;
use oracle::answer::{self, Answer, Outcome, Worked};
use oracle::generate::generations::{fixed, last, nested, pairs, random, Judged};
use oracle::generate::stream;
use oracle::generations::{Generation, Generations};
use oracle::page::record::{Kind, Record, Signature};
use oracle::page::write;
use oracle::random::Random;
use oracle::refusal::{of_table_check, UNKNOWN_FUNCTION};
use oracle::{chosen, hex};
use std::collections::BTreeSet;

fn answer(page: &[u8]) -> Answer {
    answer::answer(page).expect("the Rust is foreseen")
}

fn work(page: &[u8]) -> Worked<'_> {
    answer::work(page).expect("the Rust is foreseen")
}

fn outcomes(worked: &Worked) -> [Outcome; 2] {
    [worked.older, worked.newer]
}

#[test]
fn generated_pages_have_their_outcomes() {
    let numbers = &mut Random::new(130);
    let assert_judged = |judged: Judged| {
        let answer = answer(&judged.page);
        let found = (answer.older, answer.newer);
        let expected = (judged.older, judged.newer);
        assert_eq!(found, expected, "{}", hex::text(&judged.page));
    };
    fixed().for_each(assert_judged);
    pairs().for_each(assert_judged);
    (0..20_000).for_each(|_| assert_judged(random(numbers)));
    (0..200).for_each(|_| assert_judged(last(numbers)));
}

fn samples(seed: u64, rounds: usize) -> Vec<Vec<u8>> {
    let random = &mut Random::new(seed);
    let rounds = (0..rounds).flat_map(|_| stream::round(random));
    let samples = stream::fixed().chain(stream::short()).chain(rounds);
    samples.map(|sample| sample.page).collect()
}

/// "Each by No. 2's check with its own table": the walks that ask on their way give what the records tell afterwards,
/// and say no number but those of that check.
#[test]
fn both_ways_to_ask_the_tables_agree() {
    let numbers: BTreeSet<u8> = of_table_check().collect();
    let mut answers = [0; 4];
    for page in samples(131, 100) {
        let worked = work(&page);
        for (generation, outcome) in Generation::ALL.into_iter().zip(outcomes(&worked)) {
            let expected = by_records(&worked, generation.table());
            assert_eq!(outcome, expected, "{}", hex::text(&page));
            if let Outcome::Refused { number, .. } = outcome {
                assert!(numbers.contains(&number), "{}", hex::text(&page));
            }
        }
        let answer = Generations::of(worked.older, worked.newer);
        answers[answer.word() as usize] += 1;
    }
    assert!(answers.iter().all(|count| *count > 800), "{answers:?}");
}

fn calls(worked: &Worked, name: &str) -> bool {
    let is_call = |record: &Record| match record {
        Record::Call { signature, .. } => signature.name.text == name,
        _ => false,
    };
    worked.records.iter().any(is_call)
}

/// Two tables differ in two names only: the older one alone accepts only where holt_winters stands on the page and
/// double_exponential_smoothing does not, the newer one the other way round, both only without either. What is not
/// neither is accepted by check, with the same kind.
#[test]
fn the_two_names_decide_between_the_generations() {
    for page in samples(132, 60) {
        let worked = work(&page);
        let own = Generation::ALL.map(|generation| calls(&worked, &generation.own().name.text));
        let answer = Generations::of(worked.older, worked.newer);
        let words = hex::text(&page);
        match answer {
            Generations::Neither => continue,
            Generations::Older => assert_eq!(own, [true, false], "{words}"),
            Generations::Newer => assert_eq!(own, [false, true], "{words}"),
            Generations::Both => assert_eq!(own, [false, false], "{words}"),
        }
        let accepting = outcomes(&worked)
            .into_iter()
            .filter(|outcome| matches!(outcome, Outcome::Accepted(_)));
        for outcome in accepting {
            assert_eq!(outcome, worked.outcome, "{words}");
        }
    }
}

/// A page that a generation accepts carries its table's signatures: with these it is the page itself.
#[test]
fn pages_that_pass_carry_the_tables_signatures() {
    let random = &mut Random::new(133);
    let mut calls = [0; 2];
    for sample in (0..40).flat_map(|_| stream::round(random)) {
        let worked = work(&sample.page);
        for generation in Generation::ALL {
            let place = generation as usize;
            if !matches!(outcomes(&worked)[place], Outcome::Accepted(_)) {
                continue;
            }
            let mut records = worked.records.clone();
            for record in &mut records {
                if let Record::Call { signature, .. } = record {
                    let name = signature.name.text.as_ref();
                    *signature = generation.table()[name].clone();
                    calls[place] += 1;
                }
            }
            assert_eq!(write::page(&records), sample.page);
        }
    }
    assert!(calls.iter().all(|count| *count > 1_000), "{calls:?}");
}

fn refused(number: u8) -> Outcome {
    Outcome::Refused { number, record: 0 }
}

/// "Not No. 8's": what the operators document refuses is both; and the literal exception stays, unless the signature is
/// another.
#[test]
fn other_checks_are_not_asked() {
    let limited = chosen::of_operators()
        .iter()
        .map(|row| answer(&row.bytes()));
    let refused = |outcome| matches!(outcome, Outcome::Refused { number: 42, .. });
    let mut both = 0;
    for answer in limited.filter(|answer| refused(answer.operators)) {
        let expected = match answer.outcome {
            Outcome::Accepted(_) => Generations::Both,
            _ => Generations::Neither,
        };
        assert_eq!(answer.generations(), expected);
        both += usize::from(expected == Generations::Both);
    }
    assert!(both > 5, "{both}");
    for name in ["exp", "ln", "log10", "log2"] {
        for generation in Generation::ALL {
            let known = &generation.table()[name];
            for (result, expected) in [
                (Kind::Vector, Generations::Both),
                (Kind::Scalar, Generations::Neither),
            ] {
                let signature = Signature {
                    result,
                    ..known.clone()
                };
                let mut page = hex::bytes("0002");
                let call = Record::Call {
                    signature,
                    arguments: 1,
                };
                write::record(&mut page, &call);
                assert_eq!(answer(&page).generations(), expected, "{name}");
            }
        }
    }
}

/// "Neither, one (and which) or both": 0, 1, 2, 3 for C.
#[test]
fn answers_have_their_numbers() {
    let accepted = Outcome::Accepted(Kind::Scalar);
    let other = refused(UNKNOWN_FUNCTION);
    let answers = [
        (other, other),
        (accepted, other),
        (other, accepted),
        (accepted, accepted),
    ];
    let answers = answers.map(|(older, newer)| Generations::of(older, newer));
    assert_eq!(answers, Generations::ALL);
    assert_eq!(answers.map(Generations::word), [0, 1, 2, 3]);
}

/// Each seed has pages of every answer, both own functions, and one at the limit of records or as many as a page holds.
#[test]
fn every_seed_has_its_share() {
    for seed in 1..=40 {
        let round = stream::round(&mut Random::new(seed));
        assert_eq!(round.len(), 720);
        let made: Vec<_> = round
            .iter()
            .filter(|sample| sample.older.is_some())
            .collect();
        assert_eq!(made.len(), 60);
        let mut answers = [0; 4];
        let mut own = [0; 2];
        for sample in &made {
            let worked = work(&sample.page);
            let answer = Generations::of(worked.older, worked.newer);
            answers[answer.word() as usize] += 1;
            for generation in Generation::ALL {
                let is_called = calls(&worked, &generation.own().name.text);
                own[generation as usize] += usize::from(is_called);
            }
        }
        assert!(
            answers.iter().all(|count| *count > 3),
            "{seed}: {answers:?}"
        );
        assert!(own.iter().all(|count| *count > 8), "{seed}: {own:?}");
        let last = made.last().expect("the last page of the round");
        assert!(answer(&last.page).records >= 253, "{seed}");
    }
}

#[test]
fn nested_calls_are_as_long_as_is_told() {
    for (generation, bytes) in [(Generation::Older, 1_894), (Generation::Newer, 2_902)] {
        let page = nested(generation);
        let answer = answer(&page);
        assert_eq!((page.len(), answer.records), (bytes, 253));
        let expected = [Generations::Older, Generations::Newer][generation as usize];
        assert_eq!(answer.generations(), expected);
    }
}
