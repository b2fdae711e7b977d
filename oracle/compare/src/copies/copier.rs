//! One page: its copy by the library, between guard pages, with more room than it needs, with just enough and with one
//! byte less; and the copy as a page of its own.

use crate::library::Library;
use crate::memory::{End, Guarded};
use crate::trap;
use oracle::answer::{self, Outcome, Worked};
use oracle::page::MAX_PAGE_BYTES;
use oracle::{fields, hex};

/// The longest page that is lent, and more room than any copy needs.
const ROOM: usize = 1 << 14;

/// What buffers hold before a call.
const FILL: u8 = 0xa5;

const REFUSED: u64 = 1 << 63;

/// The memory of one thread.
pub struct Copier {
    library: Library,
    page: Guarded,
    buffer: Guarded,
}

/// An accepted page's fields by the oracle, and its copy by the library.
pub struct Copied {
    pub fields: String,
    pub copy: Vec<u8>,
}

/// A word, and the bytes that the buffer holds after it.
type Answered = (u64, Vec<u8>);

impl Copier {
    pub fn new(library: Library) -> Self {
        trap::set();
        Self {
            library,
            page: Guarded::new(ROOM),
            buffer: Guarded::new(ROOM),
        }
    }

    /// Nothing if the oracle refuses the page; else its fields and its copy, or what is wrong with that.
    pub fn copied(&mut self, page: &[u8]) -> Result<Option<Copied>, String> {
        let blamed = |words: String| format!("{words}\npage: {}", hex::text(page));
        let worked = answer::work(page).map_err(|failure| blamed(failure.0))?;
        let Some(fields) = fields::written(&worked) else {
            return Ok(None);
        };
        let copy = self.copy(&worked).map_err(blamed)?;
        self.again(&worked, &fields, &copy).map_err(blamed)?;
        Ok(Some(Copied { fields, copy }))
    }

    /// The call `copy`, with this page and this room.
    fn call(&mut self, page: &[u8], room: usize) -> Answered {
        let start = self.page.put(End::Rear, page);
        let out = self.buffer.put(End::Rear, &vec![FILL; room]);
        // SAFETY: so many bytes lie there, in two stretches of memory.
        let word = trap::naming(page, || unsafe {
            (self.library.copy)(start, page.len(), out, room)
        });
        (word, self.buffer.bytes(End::Rear, room).to_vec())
    }

    fn check(&mut self, page: &[u8]) -> u64 {
        let start = self.page.put(End::Rear, page);
        // SAFETY: so many bytes lie there.
        trap::naming(page, || unsafe { (self.library.check)(start, page.len()) })
    }

    /// The copy of an accepted page, the same with just enough room; one byte less is 5, and nothing is written.
    fn copy(&mut self, worked: &Worked) -> Result<Vec<u8>, String> {
        let (word, mut copy) = self.call(worked.page, ROOM);
        if word >= REFUSED {
            return Err(format!("copy: the word {word:#x} for an accepted page"));
        }
        copy.truncate((word / 4) as usize);
        let expected = worked.outcome.word(copy.len());
        if word != expected {
            return Err(format!("copy: the word {word:#x}, expected {expected:#x}"));
        }
        if self.call(worked.page, copy.len()) != (word, copy.clone()) {
            return Err("copy: another one with just enough room".into());
        }
        let less = copy.len().saturating_sub(1);
        let short = Outcome::Refused {
            number: 5,
            record: worked.records.len(),
        };
        if self.call(worked.page, less) != (short.word(0), vec![FILL; less]) {
            return Err("copy: not 5, or bytes written, with one byte less".into());
        }
        Ok(copy)
    }

    /// The copy passes as the same query and copies to itself; a longer one is no page.
    fn again(&mut self, worked: &Worked, fields: &str, copy: &[u8]) -> Result<(), String> {
        let is_page = copy.len() <= MAX_PAGE_BYTES;
        let outcome = match is_page {
            true => worked.outcome,
            false => Outcome::Refused {
                number: 3,
                record: 0,
            },
        };
        let word = self.check(copy);
        if word != outcome.word(0) {
            return Err(format!(
                "check of the copy: the word {word:#x}, expected {outcome:?}"
            ));
        }
        let (word, mut again) = self.call(copy, ROOM);
        if !is_page {
            let is_kept = again.iter().all(|byte| *byte == FILL);
            let is_refused = word == outcome.word(0) && is_kept;
            return is_refused
                .then_some(())
                .ok_or("a copy of what is no page".into());
        }
        again.truncate(copy.len());
        if word != outcome.word(copy.len()) || again != copy {
            return Err("the copy does not copy to itself".into());
        }
        let copied = answer::work(copy).map_err(|failure| failure.0)?;
        match fields::written(&copied).as_deref() == Some(fields) {
            true => Ok(()),
            false => Err("the copy is another query".into()),
        }
    }
}
