//! Patterns that are nearly covered: a repeat, a bracket, a foreign byte or a longer character at every place of a
//! covered one, and every byte of it left out. Their flags are believed.

use super::super::alphabet::LONGER;
use super::super::{Generator, Made};
use super::selectors::{both_flags, up, Pattern};
use super::spelling::covered;
use crate::random::Random;
use crate::uncovered::{is_foreign, is_repeat, Uncovered};

/// A covered pattern with everything that there is.
const WHOLE: &str = "(a|B.)*9?|-_+";

/// What is put between two bytes of it.
const PUT: [&str; 12] = [
    "*", "+", "?", "(", ")", "|", ":", "é", "a**", "()", ")(", "(?:)",
];

/// The pattern with this text at this place, which lies between characters.
fn with(pattern: &str, place: usize, text: &str) -> String {
    let (before, after) = pattern.split_at(place);
    [before, text, after].concat()
}

fn without(pattern: &str, place: usize) -> String {
    let (before, after) = pattern.split_at(place);
    [before, &after[1..]].concat()
}

/// Every foreign byte, at one place after another.
fn foreign() -> impl Iterator<Item = String> {
    let bytes = (0..128).filter(|byte| is_foreign(*byte));
    bytes.enumerate().map(|(index, byte)| {
        let place = index % (WHOLE.len() + 1);
        with(WHOLE, place, &char::from(byte).to_string())
    })
}

fn altered() -> impl Iterator<Item = String> {
    let put = PUT
        .into_iter()
        .flat_map(|text| (0..=WHOLE.len()).map(move |place| with(WHOLE, place, text)));
    let left_out = (0..WHOLE.len()).map(|place| without(WHOLE, place));
    let longer = LONGER.into_iter().flat_map(|character| {
        [0, 7, WHOLE.len()].map(|place| with(WHOLE, place, &character.to_string()))
    });
    put.chain(left_out).chain(foreign()).chain(longer)
}

/// With both flags, the operations taking turns.
pub(super) fn fixed() -> impl Iterator<Item = Made> {
    let operations = Pattern::BOTH.into_iter().cycle();
    let patterns = altered().chain(listed().map(String::from)).zip(operations);
    patterns.flat_map(|(pattern, operation)| both_flags(operation, &pattern))
}

/// One for each way of not being covered, and both operations.
fn listed() -> impl Iterator<Item = &'static str> {
    let patterns = ["a**", "*a", "(a", "a)", "a:b", "é*"];
    patterns.into_iter().flat_map(|pattern| [pattern; 3])
}

/// A pattern of at most so many bytes that is not covered in this way.
pub fn near_miss(random: &mut Random, how: Uncovered, most: usize) -> String {
    loop {
        let pattern = covered(random, most - 5);
        let spoiled = spoiled(random, &pattern, how);
        let found = Uncovered::find(spoiled.as_bytes());
        if found.is_some_and(|found| found.how == how) {
            return spoiled;
        }
    }
}

/// The pattern with something that may make it so.
fn spoiled(random: &mut Random, pattern: &str, how: Uncovered) -> String {
    let place = random.between(0, pattern.len());
    let repeat = random.pick::<&str>(&["*", "+", "?"]);
    match how {
        Uncovered::RepeatTwice => match pattern.bytes().position(is_repeat) {
            Some(found) if random.chance(50) => with(pattern, found + 1, repeat),
            _ => with(pattern, place, &format!("a{repeat}?")),
        },
        Uncovered::RepeatOfNothing if random.chance(30) => with(pattern, place, "(?:a)"),
        Uncovered::RepeatOfNothing => with(pattern, place, repeat),
        Uncovered::Unclosed => other_bracket(random, pattern, place, ["(", ")"]),
        // The Rust's own brackets close the first and open the last of these, so that its regex takes them.
        Uncovered::Unopened if random.chance(30) => {
            with(pattern, place, random.pick::<&str>(&[")(", ")|("]))
        }
        Uncovered::Unopened => other_bracket(random, pattern, place, [")", "("]),
        Uncovered::Foreign => {
            let bytes: Vec<u8> = (0..128).filter(|byte| is_foreign(*byte)).collect();
            let byte = char::from(*random.pick(&bytes));
            with(pattern, place, &byte.to_string())
        }
        Uncovered::AboveAscii => with(pattern, place, &random.pick(&LONGER).to_string()),
    }
}

/// A bracket more, or one of the others less.
fn other_bracket(
    random: &mut Random,
    pattern: &str,
    place: usize,
    [more, less]: [&str; 2],
) -> String {
    match pattern.rfind(less) {
        Some(found) if random.chance(50) => without(pattern, found),
        _ => with(pattern, place, more),
    }
}

impl Generator<'_> {
    pub(super) fn near_miss_page(&mut self) -> Made {
        let how = *self.random.pick(&Uncovered::ALL);
        let most = *self.random.pick(&[8, 16, 16, 40]);
        let pattern = near_miss(self.random, how, most);
        let operation = *self.random.pick(&Pattern::BOTH);
        up(vec![operation.matcher(&pattern, self.random.chance(50))])
    }
}
