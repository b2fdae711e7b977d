//! One pattern: the call on it against both guards, and `check` on pages that have it.

use super::Count;
use crate::library::Library;
use crate::memory::{End, Guarded};
use crate::trap;
use oracle::page::write;
use oracle::{answer, covered, hex};

/// The longest pattern that is lent.
const BYTES: usize = 1 << 18;

/// The memory of one thread, and what it was asked for.
pub struct Asker {
    library: Library,
    memory: Guarded,
    pub count: Count,
}

impl Asker {
    pub fn new(library: Library) -> Self {
        trap::set();
        Self {
            library,
            memory: Guarded::new(BYTES),
            count: Count::default(),
        }
    }

    /// Nothing, or the first difference from what the oracle says of the pattern.
    pub fn compare(&mut self, pattern: &[u8]) -> Result<(), String> {
        let expected = covered::word(pattern);
        for end in End::BOTH {
            let start = self.memory.put(end, pattern);
            let word = self.ask(start, pattern);
            if word != expected {
                return Err(difference(end, word, expected, pattern));
            }
            if self.memory.bytes(end, pattern.len()) != pattern {
                return Err(format!("the pattern has changed{}", named(pattern)));
            }
        }
        self.count.patterns += 1;
        self.count.covered += u64::from(expected < 2);
        self.count.matching += u64::from(expected == 1);
        Ok(())
    }

    /// The same with memory that can only be read.
    pub fn compare_read_only(&mut self, pattern: &[u8]) -> Result<(), String> {
        for end in End::BOTH {
            let start = self.memory.put(end, pattern);
            self.memory.set_read_only(true);
            self.ask(start, pattern);
            self.memory.set_read_only(false);
        }
        self.compare(pattern)
    }

    fn ask(&self, start: *const u8, pattern: &[u8]) -> u64 {
        // SAFETY: so many bytes lie there.
        trap::naming(pattern, || unsafe {
            (self.library.pattern)(start, pattern.len())
        })
    }

    /// `check` on `up{a=~".."}` and `up{a!~".."}` with both flags.
    pub fn compare_pages(&mut self, pattern: &[u8]) -> Result<(), String> {
        for form in [2, 3] {
            for flag in [0, 1] {
                let mut page = vec![2, 2, b'u', b'p', 1, form, 1, b'a'];
                write::number(&mut page, pattern.len() as u64);
                page.extend([pattern, &[flag]].concat());
                self.check(&page)?;
            }
        }
        Ok(())
    }

    fn check(&mut self, page: &[u8]) -> Result<(), String> {
        let answer = answer::answer(page).map_err(|failure| failure.0)?;
        // SAFETY: the page is a slice.
        let word = trap::naming(page, || unsafe {
            (self.library.check)(page.as_ptr(), page.len())
        });
        self.count.pages += 1;
        if word == answer.outcome.word(0) {
            return Ok(());
        }
        Err(format!(
            "check: the word {word:#x}, the oracle {:?}\npage: {}",
            answer.outcome,
            hex::text(page)
        ))
    }
}

fn difference(end: End, word: u64, expected: u64, pattern: &[u8]) -> String {
    format!(
        "pattern, {end:?}: the word {word:#x}, the oracle {expected}{}",
        named(pattern)
    )
}

/// The pattern as text and in hexadecimal, of a long one the beginning.
fn named(pattern: &[u8]) -> String {
    const SHOWN: usize = 300;
    let length = pattern.len();
    let shown = &pattern[..length.min(SHOWN)];
    let text = String::from_utf8_lossy(shown);
    let bytes = hex::text(shown);
    format!(": {text:?}, {length} bytes\npattern: {bytes}")
}
