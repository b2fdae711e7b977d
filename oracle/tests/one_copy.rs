//! One copy for one query (document 02, No. 14): what is generated has the outcome that it was made for, and the
//! sentences of the request are true of the oracle's own copies.

use oracle::answer::{self, Answer, Outcome, Worked};
use oracle::changes::{self, Change};
use oracle::generate::{good, times, Made, Scope};
use oracle::page::record::{Matcher, Record};
use oracle::page::{write, MAX_PAGE_BYTES};
use oracle::random::Random;
use oracle::{chosen, fields, hex, kept};
use std::collections::{BTreeMap, HashMap};

fn work(page: &[u8]) -> Worked<'_> {
    answer::work(page).expect("the Rust is foreseen")
}

fn assert_made(made: &Made) {
    let page = &made.page;
    assert_eq!(work(page).outcome, made.expected, "{}", hex::text(page));
}

#[test]
fn generated_times_have_their_outcome() {
    let random = &mut Random::new(14);
    times::fixed().for_each(|made| assert_made(&made));
    for _ in 0..20_000 {
        assert_made(&times::random(random));
    }
}

/// "Write @ first wherever both are set on one expression": no copy has an offset right before an @. Nothing else
/// moves: the records that are no times are the copy's in order, but for those that the check changes.
#[test]
fn at_stands_before_offset() {
    let random = &mut Random::new(15);
    let mut swapped = 0;
    for _ in 0..5_000 {
        let page = times::random(random).page;
        let worked = work(&page);
        let Some((_, copied)) = &worked.checked else {
            continue;
        };
        let is_late = |pair: &[Record]| matches!(pair, [Record::Offset { .. }, Record::At(_)]);
        assert!(!copied.windows(2).any(is_late), "{}", hex::text(&page));
        swapped += usize::from(worked.records.windows(2).any(is_late));
        let times = |records: &[Record]| {
            let is_time = |record: &&Record| matches!(record.kind_number(), 5 | 6);
            records.iter().filter(is_time).count()
        };
        assert_eq!(times(copied), times(&worked.records));
    }
    assert!(swapped > 1_000, "{swapped}");
}

/// The flags of a page's patterns, in order.
fn flags(records: &[Record]) -> Vec<bool> {
    let matchers = records.iter().flat_map(|record| match record {
        Record::Selector { matchers, .. } => matchers.as_slice(),
        _ => &[],
    });
    let flag = |matcher: &Matcher| matcher.operation.flag();
    matchers.filter_map(flag).collect()
}

/// The same once more, by what the Rust derives to print a tree in full: NaN without a sign, 0 and minus zero apart.
fn derived(worked: &Worked) -> Option<String> {
    let (tree, _) = worked.checked.as_ref()?;
    Some(format!("{tree:?} {:?}", flags(&worked.records)))
}

/// An accepted page's fields, copy and the Rust's own words.
struct Seen {
    fields: String,
    copy: Vec<u8>,
    derived: String,
}

fn seen(page: &[u8]) -> Option<Seen> {
    let worked = work(page);
    let Answer { copy, outcome, .. } = answer::of_worked(&worked);
    matches!(outcome, Outcome::Accepted(_)).then(|| Seen {
        fields: fields::written(&worked).expect("an accepted page"),
        copy,
        derived: derived(&worked).expect("an accepted page"),
    })
}

/// Equal copies, equal fields and equal words of the Rust go together; what was made to be one tree is one.
fn assert_pair(change: &Change, pages: &[Vec<u8>; 2], pair: &[Seen; 2]) {
    let [one, other] = pair;
    let is_same = one.copy == other.copy;
    let words = || {
        format!(
            "{}\n{}\n{}",
            change.words,
            hex::text(&pages[0]),
            hex::text(&pages[1])
        )
    };
    assert_eq!(is_same, one.fields == other.fields, "{}", words());
    assert_eq!(is_same, one.derived == other.derived, "{}", words());
    assert_eq!(is_same, change.is_same, "{}", words());
}

/// "two accepted pages have equal copies when, and only when, their checked trees and pattern flags agree in every
/// field": on pairs that differ in one thing.
#[test]
fn copies_are_equal_where_all_fields_are() {
    let random = &mut Random::new(16);
    let mut counts = BTreeMap::new();
    for round in 0..4_000 {
        let page = match round % 2 {
            0 => good(random, Scope::Patterns, 1 + round % 9).0,
            _ => times::random(random).page,
        };
        let worked = work(&page);
        for change in changes::all() {
            let pair = change.pair(random, &worked.records);
            let Some(pages) = pair.map(|pair| pair.map(|records| write::page(&records))) else {
                continue;
            };
            if let [Some(one), Some(other)] = [seen(&pages[0]), seen(&pages[1])] {
                assert_pair(change, &pages, &[one, other]);
                *counts.entry(change.words).or_insert(0) += 1;
            }
        }
    }
    for change in changes::all() {
        let count = counts.get(change.words).copied().unwrap_or(0);
        assert!(count > 10, "{}: {count}", change.words);
    }
}

/// The same of all pages of the kept list and all chosen ones, each beside every other.
#[test]
fn kept_pages_have_one_copy_for_one_query() {
    let kept = kept::entries().expect("the Rust is foreseen");
    let chosen = chosen::rows().chain(chosen::outside());
    let pages = kept
        .into_iter()
        .map(|(page, _)| page)
        .chain(chosen.map(|row| row.bytes()));
    let (mut copies, mut trees) = (HashMap::new(), HashMap::new());
    let mut accepted = 0;
    for Seen { fields, copy, .. } in pages.filter_map(|page| seen(&page)) {
        accepted += 1;
        assert_eq!(copies.entry(fields.clone()).or_insert(copy.clone()), &copy);
        assert_eq!(trees.entry(copy).or_insert(fields.clone()), &fields);
    }
    assert!(copies.len() > 3_000 && accepted > copies.len() + 300);
}

/// "A copy of at most 8,192 bytes passes and copies to itself": as the same tree. A longer one is no page.
#[test]
fn copies_pass_and_copy_to_themselves() {
    let random = &mut Random::new(17);
    let mut counts = [0; 2];
    for _ in 0..5_000 {
        let page = times::random(random).page;
        let Some(Seen { fields, copy, .. }) = seen(&page) else {
            continue;
        };
        let is_page = copy.len() <= MAX_PAGE_BYTES;
        counts[usize::from(is_page)] += 1;
        match seen(&copy) {
            Some(again) => assert!(is_page && again.copy == copy && again.fields == fields),
            None => {
                let refused = Outcome::Refused {
                    number: 3,
                    record: 0,
                };
                assert!(!is_page && work(&copy).outcome == refused);
            }
        }
    }
    assert!(counts.iter().all(|count| *count > 200), "{counts:?}");
}
