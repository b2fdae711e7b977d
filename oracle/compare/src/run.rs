//! Runs over generated pages, in threads. A seed gives one round of pages, so that a range of seeds can be split and
//! resumed.

use crate::judge::Judge;
use crate::library::Library;
use oracle::answer;
use oracle::coverage::Coverage;
use oracle::generate::{limits, stream};
use oracle::hex;
use oracle::random::Random;
use std::iter;
use std::ops::RangeInclusive;
use std::sync::atomic::{AtomicBool, AtomicU64, Ordering};
use std::thread;

/// What was compared without a difference, and the classes of documents 01 and 02 that it reached.
#[derive(Default)]
pub struct Tally {
    pub calls: u64,
    pub coverage: Coverage,
}

impl Tally {
    pub fn add(&mut self, other: &Tally) {
        self.calls += other.calls;
        self.coverage.add(&other.coverage);
    }
}

/// The chosen pages, the limits, every byte string of at most two bytes, one page of 100,000 bytes.
pub fn fixed(library: Library) -> Result<Tally, String> {
    let overlong = iter::once(hex::bytes(limits::OVERLONG));
    let samples = stream::fixed().chain(stream::short());
    pages(library, overlong.chain(samples.map(|sample| sample.page)))
}

/// These pages, one after another.
pub fn pages(library: Library, pages: impl Iterator<Item = Vec<u8>>) -> Result<Tally, String> {
    let mut worker = Worker::new(library, 0);
    for page in pages {
        worker.compare(&page)?;
    }
    Ok(worker.tally())
}

/// One round of pages for each seed.
pub fn seeds(
    library: Library,
    seeds: RangeInclusive<u64>,
    threads: usize,
) -> Result<Tally, String> {
    let next = AtomicU64::new(*seeds.start());
    let is_stopped = AtomicBool::new(false);
    let work = || {
        let mut worker = Worker::new(library, *seeds.start());
        while !is_stopped.load(Ordering::Relaxed) {
            let seed = next.fetch_add(1, Ordering::Relaxed);
            if !seeds.contains(&seed) {
                break;
            }
            let compared = worker.round(seed);
            if let Err(words) = compared {
                is_stopped.store(true, Ordering::Relaxed);
                return Err(format!("seed {seed}: {words}"));
            }
        }
        Ok(worker.tally())
    };
    let mut tally = Tally::default();
    thread::scope(|scope| {
        let workers: Vec<_> = (0..threads.max(1)).map(|_| scope.spawn(work)).collect();
        for worker in workers {
            let done = worker
                .join()
                .map_err(|_| "a thread panicked".to_string())??;
            tally.add(&done);
        }
        Ok(tally)
    })
}

struct Worker {
    judge: Judge,
    coverage: Coverage,
}

impl Worker {
    fn new(library: Library, seed: u64) -> Self {
        Self {
            judge: Judge::new(library, seed),
            coverage: Coverage::default(),
        }
    }

    fn round(&mut self, seed: u64) -> Result<(), String> {
        stream::round(&mut Random::new(seed))
            .iter()
            .try_for_each(|sample| self.compare(&sample.page))
    }

    fn compare(&mut self, page: &[u8]) -> Result<(), String> {
        let worked = answer::work(page)
            .map_err(|failure| format!("{}\npage: {}", failure.0, hex::text(page)))?;
        let answer = answer::of_worked(&worked);
        self.judge.compare(page, &answer)?;
        self.coverage.observe(&worked, &answer);
        Ok(())
    }

    fn tally(self) -> Tally {
        Tally {
            calls: self.judge.calls,
            coverage: self.coverage,
        }
    }
}
