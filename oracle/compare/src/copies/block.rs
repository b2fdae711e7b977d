//! Pages that are all compared with each other: equal copies and equal fields go together.

use super::copier::{Copied, Copier};
use super::{sorts, Tally};
use oracle::answer;
use oracle::changes::{self, Change};
use oracle::generate::stream;
use oracle::hex;
use oracle::page::record::Record;
use oracle::page::write;
use oracle::random::Random;
use std::collections::HashMap;

/// So many pairs are made of a page, if it has a place for them.
const CHANGES: usize = 5;

/// How many pairs were compared: of one tree, of two, and by what they differ in.
#[derive(Debug, Default, Clone, PartialEq)]
pub struct Pairs {
    pub equal: u64,
    pub unequal: u64,
    by_sort: HashMap<&'static str, u64>,
}

impl Pairs {
    pub fn count(&self, sort: &str) -> u64 {
        self.by_sort.get(sort).copied().unwrap_or(0)
    }

    /// The sorts of pairs that never occurred.
    pub fn missing(&self) -> Vec<&'static str> {
        sorts().filter(|sort| self.count(sort) == 0).collect()
    }

    pub fn add(&mut self, other: &Pairs) {
        self.equal += other.equal;
        self.unequal += other.unequal;
        for (sort, count) in &other.by_sort {
            *self.by_sort.entry(sort).or_default() += count;
        }
    }
}

pub struct Block<'c> {
    copier: &'c mut Copier,
    /// The first page of each tree.
    pages: Vec<Vec<u8>>,
    by_fields: HashMap<String, usize>,
    by_copy: HashMap<Vec<u8>, usize>,
    tally: Tally,
}

impl<'c> Block<'c> {
    pub fn new(copier: &'c mut Copier) -> Self {
        Self {
            copier,
            pages: Vec::new(),
            by_fields: HashMap::new(),
            by_copy: HashMap::new(),
            tally: Tally::default(),
        }
    }

    /// Takes in a page, which is compared with all that were taken in before; whether it was accepted, and then the
    /// number of its tree.
    pub fn take(&mut self, page: &[u8]) -> Result<Option<usize>, String> {
        let Some(copied) = self.copier.copied(page)? else {
            return Ok(None);
        };
        self.tally.pages += 1;
        self.tally.longer += u64::from(copied.copy.len() > oracle::page::MAX_PAGE_BYTES);
        let by_fields = self.by_fields.get(&copied.fields).copied();
        let by_copy = self.by_copy.get(&copied.copy).copied();
        if by_fields != by_copy {
            let words = match by_fields {
                Some(_) => "two copies of one query",
                None => "one copy of two queries",
            };
            let other = by_fields.or(by_copy).map(|place| &self.pages[place]);
            let other = hex::text(other.expect("one of them is known"));
            return Err(format!("{words}\npage: {}\npage: {other}", hex::text(page)));
        }
        Ok(Some(by_fields.unwrap_or_else(|| self.keep(page, copied))))
    }

    /// A new tree.
    fn keep(&mut self, page: &[u8], copied: Copied) -> usize {
        let place = self.pages.len();
        self.by_fields.insert(copied.fields, place);
        self.by_copy.insert(copied.copy, place);
        self.pages.push(page.to_vec());
        place
    }

    /// The accepted pages of a round, and pairs made of them.
    pub fn seed(mut self, seed: u64) -> Result<Tally, String> {
        let (same, other): (Vec<&Change>, Vec<&Change>) =
            changes::all().partition(|change| change.is_same);
        let random = &mut Random::new(seed);
        for sample in stream::round(random) {
            if self.take(&sample.page)?.is_none() {
                continue;
            }
            let worked = answer::work(&sample.page).map_err(|failure| failure.0)?;
            for _ in 0..CHANGES {
                let changes = if random.chance(40) { &same } else { &other };
                let change = random.pick(changes);
                self.pair(random, change, &worked.records)?;
            }
        }
        Ok(self.tally())
    }

    /// Both pages of a pair, if there is one and both pass; they are one tree where they were made to be one.
    fn pair(
        &mut self,
        random: &mut Random,
        change: &Change,
        records: &[Record],
    ) -> Result<(), String> {
        let Some(pair) = change.pair(random, records) else {
            return Ok(());
        };
        let [first, second] = pair.map(|records| write::page(&records));
        let (Some(one), Some(other)) = (self.take(&first)?, self.take(&second)?) else {
            return Ok(());
        };
        let is_same = one == other;
        if is_same != change.is_same {
            let pages = [&first, &second].map(|page| hex::text(page));
            return Err(format!(
                "{}: {is_same}\npage: {}\npage: {}",
                change.words, pages[0], pages[1]
            ));
        }
        let pairs = &mut self.tally.pairs;
        *pairs.by_sort.entry(change.words).or_default() += 1;
        match is_same {
            true => pairs.equal += 1,
            false => pairs.unequal += 1,
        }
        Ok(())
    }

    pub fn tally(mut self) -> Tally {
        self.tally.trees = self.pages.len() as u64;
        self.tally
    }
}
