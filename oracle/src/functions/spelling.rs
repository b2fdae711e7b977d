//! Names that are easily taken for one of the table, and in which way a name that the table lacks is near one.

use super::{names, signature};
use crate::page::read::is_function_name;
use crate::tree;

/// How a name that the table lacks stands to the names that it has.
#[derive(Debug, Clone, Copy, PartialEq, Eq)]
pub enum Spelling {
    LetterChanged,
    LetterMissing,
    LetterDoubled,
    Capitals,
    Beginning,
    Longer,
    Aggregator,
    BeforeAll,
    BehindAll,
    OneLetter,
    Longest,
}

impl Spelling {
    pub const ALL: [Spelling; 11] = [
        Spelling::LetterChanged,
        Spelling::LetterMissing,
        Spelling::LetterDoubled,
        Spelling::Capitals,
        Spelling::Beginning,
        Spelling::Longer,
        Spelling::Aggregator,
        Spelling::BeforeAll,
        Spelling::BehindAll,
        Spelling::OneLetter,
        Spelling::Longest,
    ];

    /// Those of a single name.
    pub const NEAR: [Spelling; 6] = [
        Spelling::LetterChanged,
        Spelling::LetterMissing,
        Spelling::LetterDoubled,
        Spelling::Capitals,
        Spelling::Beginning,
        Spelling::Longer,
    ];

    pub fn words(self) -> &'static str {
        match self {
            Spelling::LetterChanged => "a letter changed",
            Spelling::LetterMissing => "a letter missing",
            Spelling::LetterDoubled => "a letter doubled",
            Spelling::Capitals => "in capitals",
            Spelling::Beginning => "the beginning of a name",
            Spelling::Longer => "a name and more",
            Spelling::Aggregator => "an aggregator",
            Spelling::BeforeAll => "before the first name",
            Spelling::BehindAll => "behind the last name",
            Spelling::OneLetter => "one letter",
            Spelling::Longest => "64 letters",
        }
    }

    /// Whether a name that the table lacks is so.
    pub fn is_of(self, unknown: &str) -> bool {
        match self {
            Spelling::LetterDoubled => halved(unknown).any(|once| signature(&once).is_some()),
            Spelling::Capitals => signature(&unknown.to_ascii_lowercase()).is_some(),
            _ if Self::NEAR.contains(&self) => names().any(|name| self.is_near(name, unknown)),
            Spelling::Aggregator => aggregators().any(|name| name == unknown),
            Spelling::BeforeAll => names().all(|name| unknown < name),
            Spelling::BehindAll => names().all(|name| name < unknown),
            Spelling::OneLetter => unknown.len() == 1,
            _ => unknown.len() == 64,
        }
    }

    /// Whether another name is so near this one.
    pub fn is_near(self, name: &str, other: &str) -> bool {
        match self {
            Spelling::LetterChanged => is_changed(name, other),
            Spelling::LetterMissing => has_one_less(name, other),
            Spelling::LetterDoubled => halved(other).any(|once| once == name),
            Spelling::Capitals => other.to_ascii_lowercase() == name,
            Spelling::Beginning => name.starts_with(other),
            Spelling::Longer => other.starts_with(name),
            _ => false,
        }
    }
}

/// What is written like a call, and is none.
fn aggregators() -> impl Iterator<Item = String> {
    (17..=30).map(tree::word)
}

/// Names that no spelling of a name gives: before and behind all, aggregators, older and newer functions, the longest.
pub fn strangers() -> Vec<String> {
    let few = [
        "_",
        "A",
        "Z",
        "z",
        "aa",
        "a",
        "f",
        "zzz",
        "holt_winters",
        "xrate",
        "LN",
        "by",
    ];
    let longest = ["_", "a", "f", "z"].map(|letter| letter.repeat(64));
    let listed = few.into_iter().map(String::from).chain(aggregators());
    listed.chain(longest).collect()
}

fn is_changed(name: &str, other: &str) -> bool {
    let pairs = name.bytes().zip(other.bytes());
    name.len() == other.len() && pairs.filter(|(one, two)| one != two).count() == 1
}

/// Whether the shorter one is the longer one without one of its letters.
fn has_one_less(longer: &str, shorter: &str) -> bool {
    shorter.len() + 1 == longer.len() && without_each(longer).any(|each| each == shorter)
}

fn without_each(name: &str) -> impl Iterator<Item = String> + '_ {
    (0..name.len()).map(|place| format!("{}{}", &name[..place], &name[place + 1..]))
}

/// The name without one of two equal letters in a row.
fn halved(name: &str) -> impl Iterator<Item = String> + '_ {
    let letters = name.as_bytes();
    let places = (1..letters.len()).filter(|place| letters[*place] == letters[place - 1]);
    places.map(|place| format!("{}{}", &name[..place], &name[place + 1..]))
}

/// Every name that is near this one: each letter changed, missing or doubled, capitals, every beginning and every
/// ending, and more behind it. Some are names of the table again.
pub fn near(name: &str) -> Vec<String> {
    let mut near: Vec<String> = without_each(name).collect();
    for (place, letter) in name.char_indices() {
        let [before, after] = [&name[..place], &name[place + 1..]];
        let others = [
            letter.to_ascii_uppercase(),
            next(letter),
            before_it(letter),
            '_',
        ];
        near.extend(others.map(|other| format!("{before}{other}{after}")));
        near.push(format!("{before}{letter}{letter}{after}"));
        near.extend([&name[..place], &name[place..]].map(String::from));
    }
    near.push(name.to_ascii_uppercase());
    near.extend(
        ["_", "0", "a", "z", "Z", "_over_time", "_desc"].map(|more| format!("{name}{more}")),
    );
    near.extend(["_", "a"].map(|more| format!("{more}{name}")));
    near.retain(|each| !each.is_empty() && each != name);
    near
}

/// Those that a page can carry and the table lacks.
pub fn near_unknown(name: &str) -> Vec<String> {
    let mut near = near(name);
    near.retain(|each| is_function_name(each) && signature(each).is_none());
    near
}

fn next(letter: char) -> char {
    char::from(letter as u8 + 1)
}

fn before_it(letter: char) -> char {
    char::from(letter as u8 - 1)
}
