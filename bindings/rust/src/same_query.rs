//! Whether two pages are one query: by their copies.

use crate::{copy_into, Refusal, COPY_BYTES};
use std::error::Error;
use std::fmt;

/// Which of two pages is refused, and why; the first where both are.
#[derive(Debug, Clone, Copy, PartialEq, Eq, Hash)]
pub enum RefusedPage {
    /// The first page is refused.
    First(Refusal),
    /// The second page is refused, and the first is not.
    Second(Refusal),
}

impl RefusedPage {
    /// Why it is refused, whichever it is.
    pub fn refusal(self) -> Refusal {
        match self {
            Self::First(refusal) | Self::Second(refusal) => refusal,
        }
    }
}

/// ```
/// use sandzguli::{Refusal, RefusedPage, Rule};
///
/// let refused = RefusedPage::Second(Refusal::new(Rule::SideKind, 2));
/// assert_eq!(refused.to_string(), "second page refused 22 at 2: a side is a string or a matrix");
/// ```
impl fmt::Display for RefusedPage {
    fn fmt(&self, f: &mut fmt::Formatter) -> fmt::Result {
        let which = match self {
            Self::First(_) => "first",
            Self::Second(_) => "second",
        };
        write!(f, "{which} page {}", self.refusal())
    }
}

impl Error for RefusedPage {}

/// Whether two pages are the same query, field by field: is it on the sheet already?
///
/// Both pages are checked. Of two that are accepted the checked trees are the same, the flags of patterns among their
/// fields, if and only if the copies are equal byte by byte (proved: `one-copy`, of trees; `copies-same`, of the bytes
/// that two calls report). So `@` and `offset` may come in either order, a negated number is a number, and a set
/// operator matches many to many, whether its modifier says so, says one to one or is absent.
///
/// ```
/// use sandzguli::page::{AtModifier, Page, Record};
/// use sandzguli::same_query;
///
/// let [up, hour, end] = [Record::selector("up", []), Record::offset(3_600_000), Record::At(AtModifier::End)];
/// let first = Page::from([up.clone(), hour.clone(), end.clone()]).to_bytes();
/// let second = Page::from([up.clone(), end, hour.clone()]).to_bytes();
/// assert_eq!(same_query(&first, &second), Ok(true));
///
/// let without_at = Page::from([up, hour]).to_bytes();
/// assert_eq!(same_query(&first, &without_at), Ok(false));
/// ```
///
/// Every field counts, also where the texts are alike: the order of matchers and labels, the signature that a call
/// carries, the flags of patterns, each time of `@`, `offset 0s` and `offset -0s`, 0 and minus zero, a modifier that is
/// absent and one with nothing in it (but of set operators). NaN is one number.
///
/// ```
/// use sandzguli::page::{Code, LabelModifier, Page, Record};
///
/// let sum = |grouping| {
///     let page = [Record::selector("up", []), Record::aggregate(Code::Sum, grouping, 1)];
///     Page::from(page).to_bytes()
/// };
/// let (first, second) = (sum(LabelModifier::None), sum(LabelModifier::by([""; 0])));
/// assert_eq!(sandzguli::canonical(&first), sandzguli::canonical(&second));
/// assert_eq!(sandzguli::same_query(&first, &second), Ok(false));
/// ```
///
/// A page that is refused is no query. The error says which of the two it is:
///
/// ```
/// use sandzguli::{same_query, RefusedPage, Rule};
///
/// let refused = same_query(b"\x02\x02up\x00", b"\x01\x01a\x07").unwrap_err();
/// assert!(matches!(refused, RefusedPage::Second(_)));
/// assert_eq!((refused.refusal().rule, refused.refusal().record), (Rule::UnaryOnLiteral, 1));
/// ```
///
/// Nothing is allocated: the copies stand on the stack, [`COPY_BYTES`] for each, which hold every copy (proved:
/// `copy_page-length`); so no page is refused with 5. For a sheet of many queries keep their [copies](crate::copy).
pub fn same_query(first: &[u8], second: &[u8]) -> Result<bool, RefusedPage> {
    let mut first_copy = [0; COPY_BYTES];
    let mut second_copy = [0; COPY_BYTES];
    let first = copied(first, &mut first_copy).map_err(RefusedPage::First)?;
    let second = copied(second, &mut second_copy).map_err(RefusedPage::Second)?;
    Ok(first == second)
}

/// The copy of a page, in a lent buffer.
fn copied<'a>(page: &[u8], out: &'a mut [u8]) -> Result<&'a [u8], Refusal> {
    let written = copy_into(page, out)?;
    Ok(&out[..written.bytes])
}
