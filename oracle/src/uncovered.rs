//! In which way a pattern is not covered (document 02, No. 7), by a reading from the request's sentence alone: "a
//! choice is made of sequences, a sequence of items, and an item may hold a choice".

/// The first thing that keeps a pattern from being covered, read from the left.
#[derive(Debug, Clone, Copy, PartialEq, Eq)]
pub enum Uncovered {
    /// A repeat behind a repeat: `a**`, `a*?`.
    RepeatTwice,
    /// A repeat with no item before it: `*a`, `(*)`, `|*`, and so `(?:a)`.
    RepeatOfNothing,
    /// A bracket that is not closed: `(a`.
    Unclosed,
    /// A closing bracket too many: `a)`, `)(`.
    Unopened,
    /// A byte of ASCII that no covered pattern has: `a:b`.
    Foreign,
    /// A byte above 127: `é`.
    AboveAscii,
}

/// What was found, and at which byte.
#[derive(Debug, Clone, Copy, PartialEq, Eq)]
pub struct Found {
    pub how: Uncovered,
    pub place: usize,
}

impl Uncovered {
    pub const ALL: [Uncovered; 6] = [
        Uncovered::RepeatTwice,
        Uncovered::RepeatOfNothing,
        Uncovered::Unclosed,
        Uncovered::Unopened,
        Uncovered::Foreign,
        Uncovered::AboveAscii,
    ];

    /// Nothing for a covered pattern.
    pub fn find(pattern: &[u8]) -> Option<Found> {
        let mut reader = Reader { pattern, at: 0 };
        reader.pattern().err()
    }

    pub fn words(self) -> &'static str {
        match self {
            Uncovered::RepeatTwice => "a repeat behind a repeat",
            Uncovered::RepeatOfNothing => "a repeat with no item before it",
            Uncovered::Unclosed => "a bracket not closed",
            Uncovered::Unopened => "a closing bracket too many",
            Uncovered::Foreign => "a byte of no covered pattern",
            Uncovered::AboveAscii => "a byte above 127",
        }
    }
}

/// Letters, digits, `_`, `-` and `.`: an item by itself.
pub fn is_single(byte: u8) -> bool {
    matches!(byte, b'A'..=b'Z' | b'a'..=b'z' | b'0'..=b'9' | b'_' | b'-' | b'.')
}

pub fn is_repeat(byte: u8) -> bool {
    matches!(byte, b'*' | b'+' | b'?')
}

/// Whether a byte of ASCII is in no covered pattern.
pub fn is_foreign(byte: u8) -> bool {
    byte.is_ascii() && !is_single(byte) && !is_repeat(byte) && !matches!(byte, b'|' | b'(' | b')')
}

struct Reader<'a> {
    pattern: &'a [u8],
    at: usize,
}

impl Reader<'_> {
    fn next(&self) -> Option<u8> {
        self.pattern.get(self.at).copied()
    }

    /// Passes over the next byte if it is such a one.
    fn takes(&mut self, is_such: impl Fn(u8) -> bool) -> bool {
        let is_taken = self.next().is_some_and(is_such);
        self.at += usize::from(is_taken);
        is_taken
    }

    fn found<T>(&self, how: Uncovered) -> Result<T, Found> {
        Err(Found {
            how,
            place: self.at,
        })
    }

    fn pattern(&mut self) -> Result<(), Found> {
        self.choice()?;
        match self.next() {
            None => Ok(()),
            Some(_) => self.found(Uncovered::Unopened),
        }
    }

    fn choice(&mut self) -> Result<(), Found> {
        self.sequence()?;
        while self.takes(|byte| byte == b'|') {
            self.sequence()?;
        }
        Ok(())
    }

    fn sequence(&mut self) -> Result<(), Found> {
        while let Some(first) = self.next().filter(|byte| !matches!(byte, b'|' | b')')) {
            self.item(first)?;
        }
        Ok(())
    }

    fn item(&mut self, first: u8) -> Result<(), Found> {
        match first {
            b'(' => self.brackets()?,
            _ if is_single(first) => self.at += 1,
            _ if is_repeat(first) => return self.found(Uncovered::RepeatOfNothing),
            _ if first.is_ascii() => return self.found(Uncovered::Foreign),
            _ => return self.found(Uncovered::AboveAscii),
        }
        match self.takes(is_repeat) && self.next().is_some_and(is_repeat) {
            true => self.found(Uncovered::RepeatTwice),
            false => Ok(()),
        }
    }

    fn brackets(&mut self) -> Result<(), Found> {
        self.at += 1;
        self.choice()?;
        match self.takes(|byte| byte == b')') {
            true => Ok(()),
            false => self.found(Uncovered::Unclosed),
        }
    }
}
