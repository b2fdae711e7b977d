//! What the library knows of a pattern: its flag.

use crate::call::asked;

extern "C" {
    fn sandzguli_pattern(pattern: *const u8, pattern_len: usize) -> u64;
}

/// Whether a pattern matches empty text: the flag that stands beside it on a page. `None` where it is not covered.
///
/// Covered is a choice: sequences with `|` between them. A sequence is items one after the other, or none. An item is
/// an ASCII letter, a digit, `_`, `-`, `.`, or a choice in round brackets; then nothing, or one of `*`, `+` and `?`.
/// All other patterns are not covered, nor are those above 255 bytes, which no page holds. Any byte string may be asked
/// about. In C the call is `sandzguli_pattern`.
///
/// ```
/// use sandzguli::matches_empty;
///
/// assert_eq!(matches_empty("(a|b?)c*"), Some(true));
/// assert_eq!(matches_empty("5.."), Some(false));
/// assert_eq!(matches_empty("[1-5].."), None);
/// ```
#[doc(alias = "sandzguli_pattern")]
pub fn matches_empty(pattern: impl AsRef<[u8]>) -> Option<bool> {
    match asked(sandzguli_pattern, pattern.as_ref()) {
        0 => Some(false),
        1 => Some(true),
        _ => None,
    }
}
