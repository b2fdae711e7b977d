//! The kept list: pages with the Rust's answers, for programs that replay them (`KEPT.md` has the format).

use crate::answer::{self, Answer, Domain, Failure, Outcome};
use crate::chosen;
use crate::functions::{names as table_names, spelling};
use crate::generate::stream::{self, Sample};
use crate::generate::{
    bytes, counted_bytes, damaged, fault, fractions, functions, generations, good, ill_formed,
    long_texts, operators, patterns, times, well_formed, Scope,
};
use crate::random::Random;
use std::collections::HashSet;

/// Where a list lies, and the folder that has the words of the added checks for its entries.
pub struct Place {
    pub list: &'static str,
    pub beside: &'static str,
}

/// The list is the input of the program that replays it; the pages for the two generations have a list of their own.
pub const PLACES: [Place; 2] = [
    Place {
        list: concat!(env!("CARGO_MANIFEST_DIR"), "/../crates/vectors/stdin"),
        beside: concat!(env!("CARGO_MANIFEST_DIR"), "/kept"),
    },
    Place {
        list: concat!(env!("CARGO_MANIFEST_DIR"), "/kept/later/pages"),
        beside: concat!(env!("CARGO_MANIFEST_DIR"), "/kept/later"),
    },
];

/// Where names lie with the answers of the call for signatures.
pub const SIGNATURES_PATH: &str = concat!(env!("CARGO_MANIFEST_DIR"), "/kept/signatures");

const SEED: u64 = 20_261_115;

/// The longest split text: it fills the program's buffer.
const MAX_SPLIT: usize = 65_536;

/// The longest signature of the table, in bytes.
const MAX_SIGNATURE: usize = 8;

/// A page, and whether it may be outside document 01's domain.
type Listed = (Vec<u8>, bool);

/// The pages in order: chosen ones first, then generated ones, those about flags, those with @ and offset, those with
/// calls of the function table, those with limitk and limit_ratio; then, for the other list, those for the two
/// generations, chosen and generated. Of those about flags some are outside document 01's domain: No. 7 of document 02
/// says that they are believed.
fn pages() -> [Vec<Listed>; 2] {
    let mut random = Random::new(SEED);
    let inside = stream::before_generations()
        .map(|sample: Sample| sample.page)
        .chain(generated(&mut random))
        .map(|page| (page, false));
    let flagged = flagged(&mut random).into_iter().map(|page| (page, true));
    let timed = timed(&mut random).into_iter().map(|page| (page, false));
    let tabled = (0..300).map(|_| functions::random(&mut random).page);
    let tabled: Vec<_> = tabled.map(|page| (page, false)).collect();
    let limited = (0..300).map(|_| operators::random(&mut random).page);
    let limited: Vec<_> = limited.map(|page| (page, false)).collect();
    let added = tabled.into_iter().chain(limited);
    let judged = judged(&mut random).into_iter().map(|page| (page, false));
    let earlier = inside.chain(flagged).chain(timed).chain(added);
    [earlier.collect(), judged.collect()]
}

/// Pages of ASCII first, then pages with characters beyond it, then with fractions too, then with covered patterns.
fn generated(random: &mut Random) -> Vec<Vec<u8>> {
    let mut pages = ascii(random);
    pages.extend(beyond_ascii(random));
    pages.extend(with_fractions(random));
    pages.extend(with_patterns(random));
    pages
}

/// Many short pages, some of 40 records, a few of 250; damaged copies, random bytes, long texts.
fn ascii(random: &mut Random) -> Vec<Vec<u8>> {
    let mut pages = Vec::new();
    for round in 0..25 {
        pages.extend(whole(random, Scope::Base));
        if round % 5 == 0 {
            pages.push(good(random, Scope::Base, 250).0);
        }
    }
    let broken = broken(random, &pages);
    pages.extend(broken);
    pages.extend((0..100).map(|_| bytes(random)));
    pages.extend((0..100).map(|_| long_texts::random(random, Scope::Base).page));
    pages
}

/// Fewer of these; and ill-formed texts, texts at their limits, names that are none.
fn beyond_ascii(random: &mut Random) -> Vec<Vec<u8>> {
    let mut pages = Vec::new();
    for _ in 0..3 {
        pages.extend(whole(random, Scope::Utf8));
    }
    let broken = broken(random, &pages);
    pages.extend(broken);
    pages.extend((0..60).map(|_| long_texts::random(random, Scope::Utf8).page));
    pages.extend((0..120).map(|_| ill_formed::random(random).page));
    pages.extend((0..30).map(|_| counted_bytes::random(random).page));
    let sums = (90..110).map(|bytes| counted_bytes::random_sum(random, bytes).page);
    pages.extend(sums);
    pages.extend((0..20).map(|_| well_formed::random_name(random).page));
    pages
}

/// As many of these; and fractions by themselves, and what is none.
fn with_fractions(random: &mut Random) -> Vec<Vec<u8>> {
    let mut pages = Vec::new();
    for _ in 0..3 {
        pages.extend(whole(random, Scope::Fractions));
    }
    let broken = broken(random, &pages);
    pages.extend(broken);
    pages.extend((0..200).map(|_| fractions::random(random).page));
    pages
}

/// As many of these with covered patterns and wrong flags.
fn with_patterns(random: &mut Random) -> Vec<Vec<u8>> {
    let mut pages = Vec::new();
    for _ in 0..3 {
        pages.extend(whole(random, Scope::Patterns));
    }
    let broken = broken(random, &pages);
    pages.extend(broken);
    pages
}

/// Patterns and flags by themselves, such as are believed among them.
fn flagged(random: &mut Random) -> Vec<Vec<u8>> {
    let chosen = chosen::outside().map(|row| row.bytes());
    let fixed = patterns::fixed().map(|made| made.page);
    let random = (0..300).map(|_| patterns::random(random).page);
    chosen.chain(fixed).chain(random).collect()
}

/// Queries with @ and offset, and what of them is refused; the long ones are among the fixed pages.
fn timed(random: &mut Random) -> Vec<Vec<u8>> {
    let pages = (0..300).map(|_| times::random(random).page);
    pages.filter(|page| page.len() < 1000).collect()
}

/// Calls that two server generations judge differently, and others beside them.
fn judged(random: &mut Random) -> Vec<Vec<u8>> {
    let fixed = stream::of_generations().map(|sample| sample.page);
    let random = (0..300).map(|_| generations::random(random).page);
    fixed.chain(random).collect()
}

/// Each refusal once, good pages of 1 to 10, 20 and 40 records.
fn whole(random: &mut Random, scope: Scope) -> Vec<Vec<u8>> {
    let planted = fault::numbers(scope).map(|number| fault::planted(random, scope, number).page);
    let mut pages: Vec<_> = planted.collect();
    let sizes = (0..40).map(|size| 1 + size % 10).chain([20, 40]);
    pages.extend(sizes.map(|size| good(random, scope, size).0));
    pages
}

/// Damaged copies of every other short page.
fn broken(random: &mut Random, pages: &[Vec<u8>]) -> Vec<Vec<u8>> {
    let short = pages.iter().filter(|page| page.len() < 200);
    short.step_by(2).map(|page| damaged(random, page)).collect()
}

/// A page of the list and its answer.
pub type Entry = (Vec<u8>, Answer);

/// The pages of both lists with their answers, each page once: inside the domain unless they are about flags, and of
/// moderate length.
pub fn lists() -> Result<[Vec<Entry>; 2], Failure> {
    let mut seen = HashSet::new();
    let [first, later] = pages();
    Ok([listed(first, &mut seen)?, listed(later, &mut seen)?])
}

fn listed(pages: Vec<Listed>, seen: &mut HashSet<Vec<u8>>) -> Result<Vec<Entry>, Failure> {
    let mut entries = Vec::new();
    for (page, may_be_outside) in pages {
        let answer = answer::answer(&page)?;
        let is_listed = may_be_outside || answer.domain == Domain::Inside;
        if is_listed && answer.split.len() <= MAX_SPLIT && seen.insert(page.clone()) {
            entries.push((page, answer));
        }
    }
    Ok(entries)
}

/// The entries of both lists, one behind the other.
pub fn entries() -> Result<Vec<Entry>, Failure> {
    Ok(lists()?.into_iter().flatten().collect())
}

/// The bytes of a list.
fn list(entries: &[Entry]) -> Vec<u8> {
    let mut list = Vec::new();
    for (page, answer) in entries {
        put_bytes(&mut list, page);
        list.extend(answer.outcome.word(0).to_le_bytes());
        list.extend(answer.label.map_or(0, |part| part.word()).to_le_bytes());
        for written in [&answer.copy, &answer.canonical, &answer.split] {
            put_bytes(&mut list, written);
        }
    }
    list
}

/// The word of an added check for an answer.
type Word = fn(&Answer) -> u64;

/// The files beside a list that have a word for each of its entries, each with its word.
const ADDED: [(&str, Word); 5] = [
    ("table", |answer| answer.table.word(0)),
    ("operators", |answer| answer.operators.word(0)),
    ("older", |answer| answer.older.word(0)),
    ("newer", |answer| answer.newer.word(0)),
    ("generations", |answer| answer.generations().word()),
];

/// A word for each entry.
fn words(entries: &[Entry], word: Word) -> Vec<u8> {
    let words = entries.iter().map(|(_, answer)| word(answer));
    words.flat_map(u64::to_le_bytes).collect()
}

/// A file by its path, with its bytes.
pub type File = (String, Vec<u8>);

/// A list and the words beside it.
pub fn files(place: &Place, entries: &[Entry]) -> Vec<File> {
    let beside =
        ADDED.map(|(name, word)| (format!("{}/{name}", place.beside), words(entries, word)));
    let list = (place.list.to_string(), list(entries));
    [list].into_iter().chain(beside).collect()
}

/// Every name of the table, many that are near one, and others that are none: each once.
pub fn names() -> Vec<Vec<u8>> {
    let near = table_names().step_by(4).flat_map(spelling::near);
    let strange = spelling::strangers().into_iter();
    let others = near.chain(strange).map(String::into_bytes);
    let none = [
        b"".to_vec(),
        b"\0".to_vec(),
        b"abs\0".to_vec(),
        b"ab\xff".to_vec(),
        b"\xc3\xa9".to_vec(),
    ];
    let long = [65, 255, 256, 300, 65_539]
        .map(|length| b"abs".iter().copied().cycle().take(length).collect());
    let known = table_names().map(|name| name.as_bytes().to_vec());
    let mut seen = HashSet::new();
    let all = known.chain(others).chain(none).chain(long);
    all.filter(|name| seen.insert(name.clone())).collect()
}

/// Each name with the word of the call for signatures that is lent eight bytes, and what it writes.
pub fn signatures() -> Vec<u8> {
    let mut list = Vec::new();
    for name in names() {
        let (word, written) = crate::functions::answer(&name, MAX_SIGNATURE);
        put_bytes(&mut list, &name);
        list.extend(word.to_le_bytes());
        put_bytes(&mut list, &written);
    }
    list
}

fn put_bytes(list: &mut Vec<u8>, bytes: &[u8]) {
    list.extend((bytes.len() as u32).to_le_bytes());
    list.extend_from_slice(bytes);
}

/// How many entries there are, and how many of them were accepted.
pub fn counts(entries: &[Entry]) -> (usize, usize) {
    let is_accepted = |entry: &&Entry| matches!(entry.1.outcome, Outcome::Accepted(_));
    (entries.len(), entries.iter().filter(is_accepted).count())
}
