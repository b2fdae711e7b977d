//! One copy for one query (document 02, No. 14): copies of the library are equal exactly where all fields of the Rust's
//! checked trees and all flags are (`oracle::fields`). Pages come in pairs that differ in one thing, all pages of a
//! block are compared with each other, and so are all accepted pages of a few records of a small pool. Each copy that
//! is a page passes with the same kind and fields and copies to itself; a longer one is refused with 3 at 0.

mod block;
mod copier;
mod listed;

pub use block::Pairs;

use crate::library::Library;
use block::Block;
use copier::Copier;
use oracle::changes;
use std::sync::atomic::{AtomicBool, AtomicU64, Ordering};
use std::thread;

/// How much is tried.
#[derive(Debug, Clone, Copy)]
pub struct Sizes {
    /// Every accepted page of at most so many records of the pool.
    pub records: usize,
    /// Pairs made of the pages of so many seeds.
    pub seeds: u64,
}

impl Sizes {
    /// What is tried where no other number of seeds is asked for.
    pub const USUAL: Self = Self {
        records: 4,
        seeds: 300,
    };
}

/// What was tried without a difference.
#[derive(Debug, Default, Clone, PartialEq)]
pub struct Tally {
    pub pages: u64,
    /// Pages whose copy is longer than a page may be.
    pub longer: u64,
    /// Trees, counted in each block by themselves.
    pub trees: u64,
    pub pairs: Pairs,
}

impl Tally {
    fn add(&mut self, other: &Tally) {
        self.pages += other.pages;
        self.longer += other.longer;
        self.trees += other.trees;
        self.pairs.add(&other.pairs);
    }
}

/// What was tried: the pages of a few records, and those of the seeds.
#[derive(Debug, PartialEq)]
pub struct Tallies {
    pub listed: Tally,
    pub generated: Tally,
}

/// What was tried, or the first difference. A sort of pair that never occurred is a failure too.
pub fn compare(library: Library, sizes: Sizes) -> Result<Tallies, String> {
    let listed = listed::compare(library, sizes.records)?;
    let generated = seeds(library, sizes.seeds)?;
    let missing = generated.pairs.missing();
    if !missing.is_empty() {
        return Err(format!("never occurred: {}", missing.join(", ")));
    }
    if generated.longer == 0 {
        return Err("no copy was longer than a page".into());
    }
    Ok(Tallies { listed, generated })
}

/// A block for each seed, in as many threads as there are cores.
fn seeds(library: Library, count: u64) -> Result<Tally, String> {
    let next = AtomicU64::new(1);
    let is_stopped = AtomicBool::new(false);
    let work = || -> Result<Tally, String> {
        let mut tally = Tally::default();
        let mut copier = Copier::new(library);
        while !is_stopped.load(Ordering::Relaxed) {
            let seed = next.fetch_add(1, Ordering::Relaxed);
            if seed > count {
                break;
            }
            let done = Block::new(&mut copier).seed(seed).map_err(|words| {
                is_stopped.store(true, Ordering::Relaxed);
                format!("seed {seed}: {words}")
            })?;
            tally.add(&done);
        }
        Ok(tally)
    };
    let threads = thread::available_parallelism().map_or(1, usize::from);
    let mut tally = Tally::default();
    thread::scope(|scope| {
        let workers: Vec<_> = (0..threads).map(|_| scope.spawn(work)).collect();
        for worker in workers {
            let done = worker.join().map_err(|_| "a thread panicked".to_string())?;
            tally.add(&done?);
        }
        Ok(tally)
    })
}

/// The sorts of pairs, by their words.
pub fn sorts() -> impl Iterator<Item = &'static str> {
    changes::all().map(|change| change.words)
}
