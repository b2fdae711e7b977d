//! One page: every call, on pages and buffers against both guards, with buffers of several lengths.
//! What a call answers is compared as a word, what it writes as bytes, and so are all bytes that it must leave alone.

use crate::library::{Asks, Library, Writes};
use crate::memory::{End, Guarded};
use crate::trap;
use oracle::answer::Answer;
use oracle::hex;
use oracle::random::Random;

/// The longest page and the longest buffer that are lent.
const PAGE_BYTES: usize = 1 << 18;
const BUFFER_BYTES: usize = 1 << 20;

/// Bytes beside a buffer, on the side away from the guard, that no call may change.
pub(crate) const MARGIN: usize = 64;

/// The memory of one thread.
pub struct Judge {
    library: Library,
    page: Guarded,
    buffer: Guarded,
    /// Random bytes that buffers hold before a call.
    fill: Vec<u8>,
    random: Random,
    pub calls: u64,
}

/// The page as it is lent.
#[derive(Clone, Copy)]
struct Lent {
    end: End,
    page: *const u8,
    length: usize,
}

impl Judge {
    pub fn new(library: Library, seed: u64) -> Self {
        let mut random = Random::new(!seed);
        let fill = (0..BUFFER_BYTES).map(|_| random.byte()).collect();
        trap::set();
        Self {
            library,
            page: Guarded::new(PAGE_BYTES),
            buffer: Guarded::new(BUFFER_BYTES),
            fill,
            random,
            calls: 0,
        }
    }

    /// Nothing, or the first difference from the oracle's answer.
    pub fn compare(&mut self, page: &[u8], answer: &Answer) -> Result<(), String> {
        for end in End::BOTH {
            let lent = Lent {
                end,
                page: self.page.put(end, page),
                length: page.len(),
            };
            self.page.set_read_only(true);
            let result = trap::naming(page, || self.calls(lent, answer));
            self.page.set_read_only(false);
            result.map_err(|words| format!("{words}\npage: {}", hex::text(page)))?;
        }
        Ok(())
    }

    fn calls(&mut self, lent: Lent, answer: &Answer) -> Result<(), String> {
        let library = self.library;
        let label = answer.label.map_or(0, |part| part.word());
        let generations = answer.generations().word();
        for (name, call, expected) in [
            ("check", library.check, answer.outcome.word(0)),
            ("check_table", library.check_table, answer.table.word(0)),
            (
                "check_operators",
                library.check_operators,
                answer.operators.word(0),
            ),
            ("check_older", library.check_older, answer.older.word(0)),
            ("check_newer", library.check_newer, answer.newer.word(0)),
            ("generations", library.generations, generations),
            ("joint_label", library.joint_label, label),
        ] {
            self.asks(name, call, lent, expected)?;
        }
        for (name, call, wanted) in [
            ("copy", library.copy, &answer.copy),
            ("canonical", library.canonical, &answer.canonical),
            ("split", library.split, &answer.split),
        ] {
            self.writes(name, call, lent, answer, wanted)?;
        }
        Ok(())
    }

    fn asks(&mut self, name: &str, call: Asks, lent: Lent, expected: u64) -> Result<(), String> {
        self.calls += 1;
        // SAFETY: so many bytes lie there.
        let word = unsafe { call(lent.page, lent.length) };
        if word == expected {
            return Ok(());
        }
        let words = differing(words(name, word), words(name, expected));
        Err(format!("{name}, {:?}: {words}", lent.end))
    }

    fn writes(
        &mut self,
        name: &str,
        call: Writes,
        lent: Lent,
        answer: &Answer,
        wanted: &[u8],
    ) -> Result<(), String> {
        for length in self.lengths(wanted.len()) {
            self.write(call, lent, answer, wanted, length)
                .map_err(|words| format!("{name}, {:?}, {length} bytes lent: {words}", lent.end))?;
        }
        Ok(())
    }

    /// Exact, one shorter, longer, none; now and then much longer.
    fn lengths(&mut self, exact: usize) -> Vec<usize> {
        let more = match self.random.below(64) {
            0 => 65_536,
            _ => self.random.between(1, 64),
        };
        let mut lengths = vec![exact, exact.saturating_sub(1), exact + more, 0];
        lengths.dedup();
        lengths
    }

    fn write(
        &mut self,
        call: Writes,
        lent: Lent,
        answer: &Answer,
        wanted: &[u8],
        length: usize,
    ) -> Result<(), String> {
        self.calls += 1;
        let filled = length + MARGIN;
        let start = self.random.below(self.fill.len() - filled);
        let before = &self.fill[start..start + filled];
        self.buffer.put(lent.end, before);
        let out = self.buffer.place(lent.end, length);
        // SAFETY: so many bytes lie there, in two stretches of memory.
        let word = unsafe { call(lent.page, lent.length, out, length) };
        let written = if wanted.len() <= length { wanted } else { &[] };
        let expected = answer.outcome_lent(wanted, length).word(written.len());
        if word != expected {
            return Err(differing(words("", word), words("", expected)));
        }
        let at = match lent.end {
            End::Front => 0,
            End::Rear => MARGIN,
        };
        let after = self.buffer.bytes(lent.end, filled);
        is_written(before, after, at, written)
    }
}

/// Only the bytes at `at` have become another, and they are the text.
pub(crate) fn is_written(
    before: &[u8],
    after: &[u8],
    at: usize,
    text: &[u8],
) -> Result<(), String> {
    let end = at + text.len();
    let pairs = after[at..end].iter().zip(text);
    let same = pairs.take_while(|(found, wanted)| found == wanted).count();
    if same < text.len() {
        return Err(format!("byte {same} of the text is another"));
    }
    if after[..at] != before[..at] || after[end..] != before[end..] {
        return Err("a byte beside the text has changed".into());
    }
    Ok(())
}

pub(crate) fn differing(library: String, oracle: String) -> String {
    format!("{library}, the oracle {oracle}")
}

/// A word of the library, spelled out.
pub(crate) fn words(name: &str, word: u64) -> String {
    if name == "joint_label" {
        return format!("label {}, {} bytes", word >> 8, word & 0xff);
    }
    if name == "generations" {
        return format!("the answer {word:#x}");
    }
    if word >> 63 == 1 {
        let number = word << 1 >> 17;
        return format!("refused {number} at {}", word & 0xffff);
    }
    format!("kind {} with {} bytes", word & 3, word >> 2)
}
