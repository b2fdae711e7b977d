//! Canonical and split text. The bytes that the two calls report are well-formed UTF-8, which is proved and not tested
//! again: what is unsafe here rests on it.

use crate::call::{owned, written, Writes, Written};
use crate::{Refusal, CANONICAL_BYTES};
use std::str::{from_utf8, from_utf8_unchecked};

extern "C" {
    fn sandzguli_canonical(page: *const u8, page_len: usize, out: *mut u8, out_len: usize) -> u64;
    fn sandzguli_split(page: *const u8, page_len: usize, out: *mut u8, out_len: usize) -> u64;
}

/// A call that prints: the bytes that it reports are well-formed UTF-8.
struct Prints(Writes);

/// Proved: `canonical_text-utf8`, by `display-utf8`.
const CANONICAL: Prints = Prints(sandzguli_canonical);

/// Proved: `split_text-utf8`, by `pretty-utf8`.
const SPLIT: Prints = Prints(sandzguli_split);

/// Room for the first try at a split text; most fit.
const SPLIT_BYTES: usize = 4096;

fn owned_text(call: Prints, page: &[u8], first_room: usize) -> Result<String, Refusal> {
    let text = owned(call.0, page, first_room)?;
    debug_assert!(from_utf8(&text).is_ok());
    // SAFETY: a call that prints has reported these bytes, so that they are well-formed UTF-8.
    Ok(unsafe { String::from_utf8_unchecked(text) })
}

fn lent_text<'a>(call: Prints, page: &[u8], out: &'a mut [u8]) -> Result<&'a str, Refusal> {
    let written = written(call.0, page, out)?;
    let text = &out[..written.bytes];
    debug_assert!(from_utf8(text).is_ok());
    // SAFETY: a call that prints has reported these bytes, so that they are well-formed UTF-8.
    Ok(unsafe { from_utf8_unchecked(text) })
}

/// Room for the canonical text of a page: 4 bytes for each of its bytes and 128 for each record (proved:
/// `display-room`), and no page has more records than bytes.
fn canonical_room(page: &[u8]) -> usize {
    page.len().saturating_mul(132).min(CANONICAL_BYTES)
}

/// The query on one line.
///
/// ```
/// assert_eq!(sandzguli::canonical(b"\x00\x00\x05\x07").unwrap(), "-5");
/// ```
pub fn canonical(page: &[u8]) -> Result<String, Refusal> {
    owned_text(CANONICAL, page, canonical_room(page))
}

/// [`canonical`] into a lent buffer. A refusal changes no byte of it, an accepted call only the bytes that it reports.
///
/// ```
/// let mut out = *b"    ";
/// let written = sandzguli::canonical_into(b"\x02\x02up\x00", &mut out).unwrap();
/// assert_eq!((written.bytes, &out), (2, b"up  "));
/// ```
pub fn canonical_into(page: &[u8], out: &mut [u8]) -> Result<Written, Refusal> {
    written(sandzguli_canonical, page, out)
}

/// [`canonical_into`], answered with the text itself. It is well-formed UTF-8, which is proved and not tested.
///
/// ```
/// use sandzguli::page::{Page, Record};
///
/// let page = Page::from([Record::string("café")]).to_bytes();
/// let mut out = [0; 16];
/// assert_eq!(sandzguli::canonical_str(&page, &mut out), Ok(r#""café""#));
/// // Four characters, five bytes, and the quotes.
/// assert_eq!(sandzguli::canonical_str(&page, &mut out[..6]).unwrap_err().number(), 5);
/// ```
pub fn canonical_str<'a>(page: &[u8], out: &'a mut [u8]) -> Result<&'a str, Refusal> {
    lent_text(CANONICAL, page, out)
}

/// The query on several lines where it is longer than 100 bytes, two spaces a level; no line feed at the end.
///
/// ```
/// use sandzguli::page::{Code, Page, Record};
///
/// let name = |letter: &str| Record::selector(letter.repeat(49), []);
/// let page = Page::from([name("a"), name("b"), Record::binary(Code::Add)]).to_bytes();
/// let lines = format!("  {}\n+\n  {}", "a".repeat(49), "b".repeat(49));
/// assert_eq!(sandzguli::split(&page).unwrap(), lines);
/// ```
pub fn split(page: &[u8]) -> Result<String, Refusal> {
    owned_text(SPLIT, page, SPLIT_BYTES)
}

/// [`split`] into a lent buffer. A refusal changes no byte of it, an accepted call only the bytes that it reports.
///
/// ```
/// let mut out = [0; 2];
/// sandzguli::split_into(b"\x02\x02up\x00", &mut out).unwrap();
/// assert_eq!(&out, b"up");
/// ```
pub fn split_into(page: &[u8], out: &mut [u8]) -> Result<Written, Refusal> {
    written(sandzguli_split, page, out)
}

/// [`split_into`], answered with the text itself. It is well-formed UTF-8, which is proved and not tested.
///
/// ```
/// use sandzguli::page::{Code, LabelModifier, Page, Record};
///
/// // 80 characters, but 100 bytes: with one more there are three lines.
/// let by = |letters| {
///     let grouping = LabelModifier::by(["é".repeat(20)]);
///     let sum = Record::aggregate(Code::Sum, grouping, 1);
///     Page::from([Record::selector("m".repeat(letters), []), sum]).to_bytes()
/// };
/// let mut out = [0; 128];
/// assert_eq!(sandzguli::split_str(&by(46), &mut out).unwrap().lines().count(), 1);
/// assert_eq!(sandzguli::split_str(&by(47), &mut out).unwrap().lines().count(), 3);
/// ```
pub fn split_str<'a>(page: &[u8], out: &'a mut [u8]) -> Result<&'a str, Refusal> {
    lent_text(SPLIT, page, out)
}
