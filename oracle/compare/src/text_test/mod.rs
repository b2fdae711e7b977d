//! The test of texts by itself: `is_text` held to the Rust's `from_utf8` (document 02, No. 10), the tests of ASCII, by
//! words and by bytes (No. 4), to its `is_ascii`. `texts` has what is tried, `times` the clock.

mod texts;
mod times;

pub use texts::compare;
pub use times::print_times;

use crate::trap;
use oracle::hex;
use std::str::from_utf8;

/// `sandzguli_is_text`, `sandzguli_is_ascii_by_bytes`.
pub type Asks = unsafe extern "C" fn(text: *const u8, text_len: usize) -> bool;

/// `sandzguli_ascii_from`.
pub type AsksFrom = unsafe extern "C" fn(text: *const u8, text_len: usize, from: usize) -> bool;

/// The functions of an archive, or what stands in for them.
#[derive(Clone, Copy)]
pub struct TextTest {
    pub is_text: Asks,
    pub is_ascii: Asks,
    pub ascii_from: AsksFrom,
}

#[cfg(feature = "text_test")]
extern "C" {
    fn sandzguli_is_text(text: *const u8, text_len: usize) -> bool;
    fn sandzguli_is_ascii_by_bytes(text: *const u8, text_len: usize) -> bool;
    fn sandzguli_ascii_from(text: *const u8, text_len: usize, from: usize) -> bool;
}

#[cfg(feature = "text_test")]
impl TextTest {
    /// The functions of the archive that this program was built with.
    pub fn linked() -> Self {
        Self {
            is_text: sandzguli_is_text,
            is_ascii: sandzguli_is_ascii_by_bytes,
            ascii_from: sandzguli_ascii_from,
        }
    }
}

impl TextTest {
    /// `is_text` alone.
    fn judge_text(&self, text: &[u8]) -> Result<(), String> {
        // SAFETY: so many bytes lie there.
        let found = trap::naming(text, || unsafe {
            (self.is_text)(text.as_ptr(), text.len())
        });
        let expected = from_utf8(text).is_ok();
        if found == expected {
            return Ok(());
        }
        let text = hex::text(text);
        Err(format!(
            "is_text {found}, the Rust {expected}\ntext: {text}"
        ))
    }

    /// `is_text`; ASCII by bytes; ASCII from the start, from a place on, from the next one, and from past the end.
    fn judge(&self, text: &[u8], place: usize) -> Result<(), String> {
        self.judge_text(text)?;
        let (start, length) = (text.as_ptr(), text.len());
        let froms = [0, place, place + 1, length + 1];
        // SAFETY: so many bytes lie there.
        let (bytes, parts) = trap::naming(text, || unsafe {
            let parts = froms.map(|from| (self.ascii_from)(start, length, from));
            ((self.is_ascii)(start, length), parts)
        });
        let rest = froms.map(|from| text.get(from..).is_none_or(<[u8]>::is_ascii));
        if bytes == text.is_ascii() && parts == rest {
            return Ok(());
        }
        let found = format!("ASCII by bytes {bytes}, from {froms:?} {parts:?}");
        let expected = format!("the Rust {}, {rest:?}", text.is_ascii());
        Err(format!("{found}, {expected}\ntext: {}", hex::text(text)))
    }
}
