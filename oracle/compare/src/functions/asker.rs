//! One name: the call for its signature with buffers of every length that matters, name and buffer against both guards.

use super::Tally;
use crate::judge::{differing, is_written, words, MARGIN};
use crate::library::Library;
use crate::memory::{End, Guarded};
use crate::trap;
use oracle::random::Random;
use oracle::{functions, hex};

/// The longest name that is lent, and the longest buffer.
const NAME_BYTES: usize = 1 << 18;
const BUFFER_BYTES: usize = 1 << 12;

/// More than the longest signature: a signature has at most eight bytes.
const LENGTHS: std::ops::RangeInclusive<usize> = 0..=10;

/// The memory of one thread, and what it was asked for.
pub struct Asker {
    library: Library,
    name: Guarded,
    buffer: Guarded,
    random: Random,
    pub tally: Tally,
}

impl Asker {
    pub fn new(library: Library) -> Self {
        trap::set();
        Self {
            library,
            name: Guarded::new(NAME_BYTES),
            buffer: Guarded::new(BUFFER_BYTES),
            random: Random::new(2),
            tally: Tally::default(),
        }
    }

    /// Nothing, or the first difference from what the oracle says of the name.
    pub fn compare(&mut self, name: &[u8]) -> Result<(), String> {
        for end in End::BOTH {
            let start = self.name.put(end, name);
            for lent in LENGTHS {
                self.ask(end, start, name, lent)?;
            }
            if self.name.bytes(end, name.len()) != name {
                return Err(format!("the name has changed\nname: {}", hex::text(name)));
            }
        }
        let (word, _) = functions::answer(name, *LENGTHS.end());
        self.tally.known += u64::from(word >> 63 == 0);
        self.tally.unknown += word >> 63;
        Ok(())
    }

    /// The same with a name that can only be read.
    pub fn compare_read_only(&mut self, name: &[u8]) -> Result<(), String> {
        for end in End::BOTH {
            let start = self.name.put(end, name);
            self.name.set_read_only(true);
            let asked = self.ask(end, start, name, *LENGTHS.end());
            self.name.set_read_only(false);
            asked?;
        }
        self.compare(name)
    }

    fn ask(&mut self, end: End, start: *const u8, name: &[u8], lent: usize) -> Result<(), String> {
        self.asked(end, start, name, lent).map_err(|words| {
            let shown = &name[..name.len().min(100)];
            let text = String::from_utf8_lossy(shown);
            let bytes = hex::text(shown);
            format!("signature, {end:?}, {lent} bytes lent: {words}: {text:?}\nname: {bytes}")
        })
    }

    fn asked(
        &mut self,
        end: End,
        start: *const u8,
        name: &[u8],
        lent: usize,
    ) -> Result<(), String> {
        self.tally.calls += 1;
        let before: Vec<u8> = (0..lent + MARGIN).map(|_| self.random.byte()).collect();
        self.buffer.put(end, &before);
        let out = self.buffer.place(end, lent);
        // SAFETY: so many bytes lie there, in two stretches of memory.
        let word = trap::naming(name, || unsafe {
            (self.library.signature)(start, name.len(), out, lent)
        });
        let (expected, written) = functions::answer(name, lent);
        if word != expected {
            return Err(differing(words("", word), words("", expected)));
        }
        let at = match end {
            End::Front => 0,
            End::Rear => MARGIN,
        };
        is_written(&before, self.buffer.bytes(end, before.len()), at, &written)
    }
}
