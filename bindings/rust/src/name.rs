//! What the archive says of itself: names of kinds and refusals, and its version.

use crate::call::outcome;
use crate::{Refusal, NAME_BYTES};

extern "C" {
    fn sandzguli_kind_name(kind: u64, out: *mut u8, out_len: usize) -> u64;
    fn sandzguli_refusal_name(refusal: u64, out: *mut u8, out_len: usize) -> u64;
    fn sandzguli_version() -> u64;
}

type Names = unsafe extern "C" fn(u64, *mut u8, usize) -> u64;

fn written(call: Names, number: u64, out: &mut [u8]) -> Result<usize, Refusal> {
    // SAFETY: the buffer is a slice.
    let word = unsafe { call(number, out.as_mut_ptr(), out.len()) };
    outcome(word).map(|written| written.bytes)
}

/// The name of a number, if it has one. A longer buffer is lent as long as it is too short.
fn owned(call: Names, number: u64) -> Option<String> {
    let mut out = vec![0; NAME_BYTES];
    let length = loop {
        match written(call, number, &mut out) {
            Ok(length) => break length,
            Err(_) => out.resize(2 * out.len(), 0),
        }
    };
    out.truncate(length);
    let name = String::from_utf8(out).expect("a name has bytes below 128");
    (length > 0).then_some(name)
}

/// The archive's name of a kind, by its number; [`Kind`](crate::Kind) displays the same.
///
/// ```
/// assert_eq!(sandzguli::kind_name(2).as_deref(), Some("matrix"));
/// assert_eq!(sandzguli::kind_name(4), None);
/// ```
pub fn kind_name(number: u64) -> Option<String> {
    owned(sandzguli_kind_name, number)
}

/// [`kind_name`] into a lent buffer: the count of bytes written, 0 where the number has no name. A refusal changes no
/// byte.
///
/// ```
/// let mut out = *b"        ";
/// assert_eq!(sandzguli::kind_name_into(0, &mut out), Ok(6));
/// assert_eq!(&out, b"vector  ");
/// assert_eq!(sandzguli::kind_name_into(0, &mut out[..5]).unwrap_err().number(), 5);
/// ```
pub fn kind_name_into(number: u64, out: &mut [u8]) -> Result<usize, Refusal> {
    written(sandzguli_kind_name, number, out)
}

/// The archive's name of a refusal, by its number. [`Rule::name`](crate::Rule::name) has the same without a call, for
/// the rules that this binding knows.
///
/// ```
/// assert_eq!(sandzguli::refusal_name(8).as_deref(), Some("range after @"));
/// assert_eq!(sandzguli::refusal_name(0), None);
/// ```
pub fn refusal_name(number: u64) -> Option<String> {
    owned(sandzguli_refusal_name, number)
}

/// [`refusal_name`] into a lent buffer: the count of bytes written, 0 where the number has no name. A refusal changes
/// no byte.
///
/// ```
/// let mut out = [0; sandzguli::NAME_BYTES];
/// let length = sandzguli::refusal_name_into(10, &mut out).unwrap();
/// assert_eq!(&out[..length], b"@ set already");
/// ```
pub fn refusal_name_into(number: u64, out: &mut [u8]) -> Result<usize, Refusal> {
    written(sandzguli_refusal_name, number, out)
}

/// The version of the archive: major, minor and patch.
///
/// ```
/// assert!(sandzguli::version() >= (0, 3, 0));
/// ```
pub fn version() -> (u64, u64, u64) {
    // SAFETY: the function takes nothing.
    let word = unsafe { sandzguli_version() };
    (word >> 16, word >> 8 & 0xff, word & 0xff)
}
