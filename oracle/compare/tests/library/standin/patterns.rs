//! Libraries that read patterns wrongly: a fault each, in the call for patterns.

use super::{slice, whole};
use compare::library::{Asks, Library};
use oracle::covered;

#[derive(Debug, Clone, Copy, PartialEq)]
enum Fault {
    None,
    PlusAsStar,
    OptionalAsOnce,
    RepeatTwice,
    RepeatOfNothing,
    ClosingTooMany,
    ClosingMissing,
    FirstSequence,
    LastSequence,
    EverySequence,
    FirstItem,
    LastItem,
    EmptySequence,
    Neighbours,
    AboveAscii,
    Shallow,
}

/// The faults, with words for them.
const FAULTS: [(Fault, &str); 15] = [
    (Fault::PlusAsStar, "`+` taken for `*`"),
    (Fault::OptionalAsOnce, "`?` passed over"),
    (Fault::RepeatTwice, "`a**` covered"),
    (Fault::RepeatOfNothing, "`*a` covered"),
    (
        Fault::ClosingTooMany,
        "a closing bracket too many let through",
    ),
    (
        Fault::ClosingMissing,
        "a bracket that is not closed let through",
    ),
    (Fault::FirstSequence, "only the first sequence looked at"),
    (Fault::LastSequence, "only the last sequence looked at"),
    (Fault::EverySequence, "`|` taken for and"),
    (Fault::FirstItem, "only the first item looked at"),
    (Fault::LastItem, "only the last item looked at"),
    (
        Fault::EmptySequence,
        "an empty sequence that does not match empty text",
    ),
    (Fault::Neighbours, "bytes beside letters and digits covered"),
    (Fault::AboveAscii, "bytes above 127 covered"),
    (Fault::Shallow, "nothing covered below a hundred brackets"),
];

/// Reads a pattern as it must be read, but for the fault: whether it matches empty text, or nothing if it is not
/// covered.
struct Reader<'a> {
    rest: &'a [u8],
    fault: Fault,
    depth: usize,
}

impl Reader<'_> {
    fn takes(&mut self, bytes: &[u8]) -> Option<u8> {
        let (first, rest) = self.rest.split_first()?;
        bytes.contains(first).then(|| {
            self.rest = rest;
            *first
        })
    }

    fn choice(&mut self) -> Option<bool> {
        let first = self.sequence()?;
        let mut sequences = vec![first];
        while self.takes(b"|").is_some() {
            sequences.push(self.sequence()?);
        }
        Some(match self.fault {
            Fault::FirstSequence => first,
            Fault::LastSequence => sequences[sequences.len() - 1],
            Fault::EverySequence => !sequences.contains(&false),
            _ => sequences.contains(&true),
        })
    }

    fn sequence(&mut self) -> Option<bool> {
        let mut items = Vec::new();
        while self.rest.first().is_some_and(|byte| !b"|)".contains(byte)) {
            items.push(self.item()?);
        }
        Some(match (self.fault, items.as_slice()) {
            (Fault::EmptySequence, []) => false,
            (Fault::FirstItem, [first, ..]) => *first,
            (Fault::LastItem, [.., last]) => *last,
            _ => !items.contains(&false),
        })
    }

    fn item(&mut self) -> Option<bool> {
        let first = self.rest[0];
        let matches = match first {
            b'(' => self.brackets()?,
            b'*' | b'+' | b'?' if self.fault != Fault::RepeatOfNothing => return None,
            b'*' | b'+' | b'?' => true,
            _ if !self.is_single(first) => return None,
            _ => {
                self.rest = &self.rest[1..];
                false
            }
        };
        self.repeated(matches)
    }

    fn is_single(&self, byte: u8) -> bool {
        let is_neighbour = b"/:@[`{".contains(&byte);
        byte.is_ascii_alphanumeric()
            || b"_-.".contains(&byte)
            || self.fault == Fault::Neighbours && is_neighbour
            || self.fault == Fault::AboveAscii && byte > 127
    }

    fn repeated(&mut self, matches: bool) -> Option<bool> {
        let Some(repeat) = self.takes(b"*+?") else {
            return Some(matches);
        };
        let is_twice = self.rest.first().is_some_and(|byte| b"*+?".contains(byte));
        let matches = match (repeat, self.fault) {
            (b'+', fault) => matches || fault == Fault::PlusAsStar,
            (b'?', Fault::OptionalAsOnce) => matches,
            _ => true,
        };
        match (is_twice, self.fault) {
            (false, _) => Some(matches),
            (true, Fault::RepeatTwice) => self.repeated(matches),
            (true, _) => None,
        }
    }

    fn brackets(&mut self) -> Option<bool> {
        self.rest = &self.rest[1..];
        self.depth += 1;
        if self.fault == Fault::Shallow && self.depth > 100 {
            return None;
        }
        let matches = self.choice()?;
        self.depth -= 1;
        let is_closed = self.takes(b")").is_some();
        (is_closed || self.fault == Fault::ClosingMissing).then_some(matches)
    }
}

/// What a library with the fault says of a pattern.
pub fn faulty_word(place: usize, pattern: &[u8]) -> u64 {
    let (fault, _) = FAULTS[place];
    word(fault, pattern)
}

fn word(fault: Fault, pattern: &[u8]) -> u64 {
    if pattern.len() > 255 {
        return 2;
    }
    let mut reader = Reader {
        rest: pattern,
        fault,
        depth: 0,
    };
    let matches = reader.choice();
    let is_read = reader.rest.is_empty() || fault == Fault::ClosingTooMany;
    matches.filter(|_| is_read).map_or(2, u64::from)
}

/// The same reader without a fault.
extern "C" fn reads(pattern: *const u8, length: usize) -> u64 {
    word(Fault::None, slice(pattern, length))
}

pub fn sound() -> Library {
    Library {
        pattern: reads,
        ..whole()
    }
}

extern "C" fn misreads<const PLACE: usize>(pattern: *const u8, length: usize) -> u64 {
    faulty_word(PLACE, slice(pattern, length))
}

/// Answers by coverage above 255 bytes too: runs of letters and of `|` are all that it knows there.
extern "C" fn unlimited(pattern: *const u8, length: usize) -> u64 {
    let pattern = slice(pattern, length);
    match pattern {
        [b'a', rest @ ..] if rest.iter().all(|byte| *byte == b'a') => 0,
        _ => covered::word(pattern),
    }
}

/// Keeps a length in one byte.
extern "C" fn in_one_byte(pattern: *const u8, length: usize) -> u64 {
    covered::word(slice(pattern, length % 256))
}

/// Says of what is not covered that it does not match.
extern "C" fn not_covered_as_0(pattern: *const u8, length: usize) -> u64 {
    covered::word(slice(pattern, length)) % 2
}

/// Reads the byte behind the pattern for a repeat.
pub extern "C" fn reads_behind(pattern: *const u8, length: usize) -> u64 {
    // SAFETY: none, that is the fault.
    let _ = unsafe { pattern.add(length).read_volatile() };
    covered::word(slice(pattern, length))
}

/// Writes to the pattern, though the value stays.
pub extern "C" fn writes_pattern(pattern: *const u8, length: usize) -> u64 {
    if length > 0 {
        // SAFETY: none, that is the fault: the pattern is lent for reading.
        unsafe { pattern.cast_mut().write_volatile(*pattern) };
    }
    covered::word(slice(pattern, length))
}

/// The faults of reading, one after the other: words, and the call.
#[rustfmt::skip]
pub fn misreading() -> impl Iterator<Item = (&'static str, Asks)> {
    let calls: [Asks; 15] = [
        misreads::<0>, misreads::<1>, misreads::<2>, misreads::<3>, misreads::<4>, misreads::<5>, misreads::<6>,
        misreads::<7>, misreads::<8>, misreads::<9>, misreads::<10>, misreads::<11>, misreads::<12>, misreads::<13>,
        misreads::<14>,
    ];
    FAULTS.into_iter().zip(calls).map(|((_, words), call)| (words, call))
}

/// Words for the fault, the library.
pub fn faulty() -> Vec<(&'static str, Library)> {
    let others: [(&str, Asks); 3] = [
        ("more than 255 bytes answered", unlimited),
        ("a length in one byte", in_one_byte),
        ("0 for what is not covered", not_covered_as_0),
    ];
    let library = |pattern| Library { pattern, ..whole() };
    let calls = misreading().chain(others);
    calls.map(|(words, call)| (words, library(call))).collect()
}
