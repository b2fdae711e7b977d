//! `sandzguli_pattern` (document 02, No. 7) held to the oracle: on every pattern of a few of the eight signs, on random
//! ones, on nests that fill 255 bytes and on longer ones, between guard pages. A part of them stands in pages too, with
//! both flags, for `check`.

mod asker;
mod listed;
mod nests;
mod random;

pub use asker::Asker;
pub use listed::{every, signs_below};

use crate::library::Library;
use std::sync::atomic::{AtomicBool, AtomicU64, Ordering};
use std::thread;

/// How much is tried.
#[derive(Debug, Clone, Copy)]
pub struct Sizes {
    /// Every pattern of at most so many signs.
    pub signs: usize,
    /// Every one of at most so many stands in pages too.
    pub signs_in_pages: usize,
    pub random: u64,
}

impl Sizes {
    /// What is tried where no other count of random ones is asked for.
    pub const USUAL: Self = Self {
        signs: 7,
        signs_in_pages: 5,
        random: 1_000_000,
    };
}

/// What was tried without a difference.
#[derive(Debug, Default, Clone, Copy, PartialEq)]
pub struct Count {
    pub patterns: u64,
    pub covered: u64,
    /// Of them those that match empty text.
    pub matching: u64,
    pub pages: u64,
}

impl Count {
    fn add(&mut self, other: Count) {
        self.patterns += other.patterns;
        self.covered += other.covered;
        self.matching += other.matching;
        self.pages += other.pages;
    }
}

#[derive(Debug, Default, PartialEq)]
pub struct Tally {
    pub listed: Count,
    pub random: Count,
    pub nests: Count,
}

/// What was tried, or the first difference.
pub fn compare(library: Library, sizes: Sizes) -> Result<Tally, String> {
    Ok(Tally {
        nests: nests::compare(&mut Asker::new(library))?,
        listed: listed::compare(library, sizes)?,
        random: random::compare(library, sizes.random)?,
    })
}

/// Does so many blocks of work, in as many threads as there are cores.
fn in_threads(
    library: Library,
    blocks: u64,
    work: impl Fn(&mut Asker, u64) -> Result<(), String> + Sync,
) -> Result<Count, String> {
    let next = AtomicU64::new(0);
    let is_stopped = AtomicBool::new(false);
    let worker = || -> Result<Count, String> {
        let mut asker = Asker::new(library);
        while !is_stopped.load(Ordering::Relaxed) {
            let block = next.fetch_add(1, Ordering::Relaxed);
            if block >= blocks {
                break;
            }
            work(&mut asker, block).inspect_err(|_| is_stopped.store(true, Ordering::Relaxed))?;
        }
        Ok(asker.count)
    };
    let threads = thread::available_parallelism().map_or(1, usize::from);
    let mut count = Count::default();
    thread::scope(|scope| {
        let workers: Vec<_> = (0..threads).map(|_| scope.spawn(worker)).collect();
        for worker in workers {
            let done = worker
                .join()
                .map_err(|_| "a thread panicked".to_string())??;
            count.add(done);
        }
        Ok(count)
    })
}
