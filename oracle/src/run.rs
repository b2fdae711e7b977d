//! A run over generated pages: every answer is checked against what the page was made for and against itself.

use crate::answer::{self, Answer, Outcome, Worked};
use crate::coverage::Coverage;
use crate::generate::stream::{self, Sample};
use crate::hex;
use crate::page::{write, MAX_PAGE_BYTES};
use crate::random::Random;

/// Goes over the fixed pages, all byte strings of at most two bytes and `rounds` rounds from the seed.
pub fn run(seed: u64, rounds: usize) -> Result<Coverage, String> {
    let mut coverage = Coverage::default();
    for sample in stream::fixed().chain(stream::short()) {
        judge(&sample, &mut coverage)?;
    }
    let mut random = Random::new(seed);
    for _ in 0..rounds {
        for sample in stream::round(&mut random) {
            judge(&sample, &mut coverage)?;
        }
    }
    Ok(coverage)
}

fn judge(sample: &Sample, coverage: &mut Coverage) -> Result<(), String> {
    let blamed = |words: String| format!("{words}\npage: {}", hex::text(&sample.page));
    let worked = answer::work(&sample.page).map_err(|failure| blamed(failure.0))?;
    let answer = answer::of_worked(&worked);
    for (made_for, outcome) in [
        (sample.expected, answer.outcome),
        (sample.table, answer.table),
        (sample.operators, answer.operators),
        (sample.older, answer.older),
        (sample.newer, answer.newer),
    ] {
        if let Some(expected) = made_for.filter(|expected| *expected != outcome) {
            return Err(blamed(format!("made for {expected:?}, got {outcome:?}")));
        }
    }
    agrees_with_itself(&sample.page, &worked, &answer).map_err(blamed)?;
    coverage.observe(&worked, &answer);
    Ok(())
}

/// An accepted page is its records written; its copy reads as the same query; its split text joins to the canonical one.
fn agrees_with_itself(page: &[u8], worked: &Worked, answer: &Answer) -> Result<(), String> {
    let Outcome::Accepted(_) = answer.outcome else {
        return Ok(());
    };
    if write::page(&worked.records) != page {
        return Err("the records written again are another page".into());
    }
    if joined(&answer.split) != answer.canonical {
        return Err("the split text joined is another text".into());
    }
    if answer.copy.len() > MAX_PAGE_BYTES {
        return Ok(());
    }
    let copied = answer::work(&answer.copy).map_err(|failure| failure.0)?;
    let again = answer::of_worked(&copied);
    let is_same = again.outcome == answer.outcome
        && again.canonical == answer.canonical
        && again.split == answer.split
        && again.copy == answer.copy;
    let tree = |worked: &Worked| format!("{:?}", worked.checked.as_ref().map(|(tree, _)| tree));
    if !is_same || tree(&copied) != tree(worked) {
        return Err("the copy reads as another query".into());
    }
    Ok(())
}

/// Split text on one line: a break and its indentation go beside brackets, and are one space elsewhere.
fn joined(split: &[u8]) -> Vec<u8> {
    let mut joined: Vec<u8> = Vec::new();
    for (index, line) in split.split(|byte| *byte == b'\n').enumerate() {
        let indentation = line.iter().take_while(|byte| **byte == b' ').count();
        let rest = &line[indentation..];
        if index > 0 && !joined.ends_with(b"(") && !rest.starts_with(b")") {
            joined.push(b' ');
        }
        joined.extend_from_slice(rest);
    }
    joined
}
