//! Long runs over seeds, a block at a time. After each block a small file says how far the run came and what it counted, so
//! that a run that was stopped goes on from there.

use crate::library::Library;
use crate::run::{self, Tally};
use oracle::coverage::Coverage;
use std::fs;
use std::hash::{DefaultHasher, Hasher};
use std::ops::RangeInclusive;
use std::path::Path;
use std::time::Instant;

/// A run over seeds.
pub struct Run {
    pub library: Library,
    pub seeds: RangeInclusive<u64>,
    pub threads: usize,
    /// Seeds of a block.
    pub block: u64,
}

/// How far a run came.
#[derive(Default)]
struct State {
    /// What the run is: its program and its seeds. Counts of two libraries are never added.
    run: String,
    next: u64,
    milliseconds: u64,
    tally: Tally,
}

impl Run {
    /// Goes on from what the file says, if there is one. What was counted from the first seed on, and the seconds it took.
    pub fn resume(&self, file: &Path) -> Result<(Tally, u64), String> {
        let mut state = self.state(file)?;
        while state.next <= *self.seeds.end() {
            let start = Instant::now();
            let last = (state.next + self.block - 1).min(*self.seeds.end());
            let done = run::seeds(self.library, state.next..=last, self.threads)?;
            state.tally.add(&done);
            state.next = last + 1;
            state.milliseconds += start.elapsed().as_millis() as u64;
            state.write(file)?;
            eprintln!("{}", state.progress(*self.seeds.end()));
        }
        Ok((state.tally, state.milliseconds / 1000))
    }

    fn state(&self, file: &Path) -> Result<State, String> {
        let run = format!("{} {:?}", program()?, self.seeds);
        if !file.exists() {
            return Ok(State {
                run,
                next: *self.seeds.start(),
                ..State::default()
            });
        }
        let lines = fs::read_to_string(file).map_err(|error| error.to_string())?;
        let state = State::read(&lines).ok_or(format!("{}: no state of a run", file.display()))?;
        if state.run != run {
            let words = "the state of another program or of other seeds";
            return Err(format!("{}: {words}", file.display()));
        }
        Ok(state)
    }
}

/// Names this program, with the library that is linked into it, by its bytes.
fn program() -> Result<String, String> {
    let bytes = std::env::current_exe().and_then(fs::read);
    let mut hasher = DefaultHasher::new();
    hasher.write(&bytes.map_err(|error| error.to_string())?);
    Ok(format!("{:016x}", hasher.finish()))
}

impl State {
    /// Written beside the file and then put in its place, so that a stop leaves the one state or the other.
    fn write(&self, file: &Path) -> Result<(), String> {
        let beside = file.with_extension("new");
        let lines = format!(
            "{}\n{} {} {}\n{}",
            self.run,
            self.next,
            self.milliseconds,
            self.tally.calls,
            self.tally.coverage.to_lines()
        );
        fs::write(&beside, lines)
            .and_then(|()| fs::rename(&beside, file))
            .map_err(|error| format!("{}: {error}", file.display()))
    }

    fn read(lines: &str) -> Option<Self> {
        let (run, rest) = lines.split_once('\n')?;
        let (numbers, coverage) = rest.split_once('\n')?;
        let numbers: Vec<u64> = numbers
            .split(' ')
            .map_while(|number| number.parse().ok())
            .collect();
        let [next, milliseconds, calls] = numbers[..] else {
            return None;
        };
        let coverage = Coverage::of_lines(coverage)?;
        Some(Self {
            run: run.into(),
            next,
            milliseconds,
            tally: Tally { calls, coverage },
        })
    }

    fn progress(&self, last: u64) -> String {
        let coverage = &self.tally.coverage;
        format!(
            "seed {} of {last}: {} pages, {} accepted, {} calls, {} classes missing, {} s",
            self.next - 1,
            coverage.pages,
            coverage.accepted,
            self.tally.calls,
            coverage.missing().len(),
            self.milliseconds / 1000
        )
    }
}
