//! The library's calls as safe functions: check, with the function table and as the operators document asks too, the
//! label of 19, the copy, and what all calls share. Unsafe are the calls themselves, and that the label is taken as
//! UTF-8 without a test.

use crate::{Kind, Refusal, Rule, COPY_BYTES};
use std::str::{from_utf8, from_utf8_unchecked};

extern "C" {
    fn sandzguli_check(page: *const u8, page_len: usize) -> u64;
    fn sandzguli_check_table(page: *const u8, page_len: usize) -> u64;
    fn sandzguli_check_operators(page: *const u8, page_len: usize) -> u64;
    fn sandzguli_joint_label(page: *const u8, page_len: usize) -> u64;
    fn sandzguli_copy(page: *const u8, page_len: usize, out: *mut u8, out_len: usize) -> u64;
}

pub(crate) type Asks = unsafe extern "C" fn(*const u8, usize) -> u64;
pub(crate) type Writes = unsafe extern "C" fn(*const u8, usize, *mut u8, usize) -> u64;

/// What an accepted call wrote.
#[derive(Debug, Clone, Copy, PartialEq, Eq)]
#[non_exhaustive]
pub struct Written {
    /// The kind of the query; of a signature that of the function's result.
    pub kind: Kind,
    /// How many bytes were written, from the buffer's start.
    pub bytes: usize,
}

/// The outcome that a word stands for. A number that is not known is one of a newer archive.
pub(crate) fn outcome(word: u64) -> Result<Written, Refusal> {
    if word >> 63 == 1 {
        let rule = Rule::of_byte((word >> 16) as u8);
        let record = (word & 0xffff) as usize;
        return Err(Refusal { rule, record });
    }
    let kind = Kind::ALL[(word & 3) as usize];
    let bytes = (word >> 2) as usize;
    Ok(Written { kind, bytes })
}

pub(crate) fn asked(call: Asks, bytes: &[u8]) -> u64 {
    // SAFETY: the bytes are a slice.
    unsafe { call(bytes.as_ptr(), bytes.len()) }
}

/// A call on a page or on a name.
pub(crate) fn written(call: Writes, bytes: &[u8], out: &mut [u8]) -> Result<Written, Refusal> {
    // SAFETY: both are slices, and borrowed bytes do not overlap a buffer that is borrowed mutably.
    outcome(unsafe { call(bytes.as_ptr(), bytes.len(), out.as_mut_ptr(), out.len()) })
}

/// The bytes that a call writes. A longer buffer is lent as long as it is too short.
pub(crate) fn owned(call: Writes, bytes: &[u8], first_room: usize) -> Result<Vec<u8>, Refusal> {
    let mut out = vec![0; first_room];
    loop {
        match written(call, bytes, &mut out) {
            Ok(written) => {
                out.truncate(written.bytes);
                return Ok(out);
            }
            Err(refusal) if refusal.rule == Rule::OutputTooShort => out.resize(2 * out.len(), 0),
            Err(refusal) => return Err(refusal),
        }
    }
}

/// The kind of the query that a page holds, or why it is refused. Any byte string may be asked about.
///
/// ```
/// use sandzguli::Kind;
///
/// assert_eq!(sandzguli::check(b"\x02\x02up\x00"), Ok(Kind::Vector));
/// assert_eq!(sandzguli::check(b"").unwrap_err().number(), 2);
/// ```
pub fn check(page: &[u8]) -> Result<Kind, Refusal> {
    outcome(asked(sandzguli_check, page)).map(|written| written.kind)
}

/// [`check`] that holds every call record to the function table too: a name that the table lacks is refused with
/// [`Rule::UnknownFunction`], a signature unlike the table's with [`Rule::UnlikeSignature`].
///
/// Both are asked when all fields of the record were read and before its operands are counted; the first record that is
/// refused decides. A page that passes, [`check`] accepts with the same kind (proved: `table-accepted`). A page that is
/// refused with another rule, [`check`] refuses with it at the same record (`table-refused`). That rule never is
/// [`Rule::NoDeclaredKinds`] (`table-no-29`).
///
/// ```
/// use sandzguli::page::{Function, Page, Record};
/// use sandzguli::{Kind, Refusal, Rule};
///
/// let up = Record::selector("up", []);
/// let page = Page::from([up.clone(), Record::call_known("abs", 1).unwrap()]).to_bytes();
/// assert_eq!(sandzguli::check_table(&page), Ok(Kind::Vector));
///
/// // Made by hand, with a kind that abs does not take: only the table tells.
/// let wrong = Function::fixed("abs", [Kind::Scalar], Kind::Scalar);
/// let page = Page::from([Record::whole(1), Record::call(wrong, 1)]).to_bytes();
/// assert_eq!(sandzguli::check(&page), Ok(Kind::Scalar));
/// assert_eq!(sandzguli::check_table(&page), Err(Refusal::new(Rule::UnlikeSignature, 1)));
///
/// let misspelt = Function::fixed("asb", [Kind::Vector], Kind::Vector);
/// let page = Page::from([up, Record::call(misspelt, 1)]).to_bytes();
/// assert_eq!(sandzguli::check_table(&page).unwrap_err().rule, Rule::UnknownFunction);
/// ```
pub fn check_table(page: &[u8]) -> Result<Kind, Refusal> {
    outcome(asked(sandzguli_check_table, page)).map(|written| written.kind)
}

/// [`check`] as the operators document asks: a `limitk` or `limit_ratio` whose parameter, the first of its two
/// arguments, is no scalar is refused with [`Rule::LimitParameter`]. [`check`] takes a parameter of any kind there, as
/// the Rust crate promql-parser does.
///
/// The kind decides, not what the parameter is. The rule is asked when [`check`] has nothing against the record, so
/// after [`Rule::AggregateKind`]; the first record that is refused decides. A page that passes, [`check`] accepts with
/// the same kind (proved: `limit-accepted`). A page that is refused with another rule, [`check`] refuses with it at the
/// same record (`limit-refused`). The function table is not asked.
///
/// ```
/// use sandzguli::page::{Code, LabelModifier, Page, Record};
/// use sandzguli::{Kind, Refusal, Rule};
///
/// let [up, limit] = [Record::selector("up", []), Record::aggregate(Code::Limitk, LabelModifier::None, 2)];
/// let page = Page::from([Record::string("a"), up.clone(), limit.clone()]).to_bytes();
/// assert_eq!(sandzguli::canonical(&page).unwrap(), r#"limitk("a", up)"#);
/// assert_eq!(sandzguli::check(&page), Ok(Kind::Vector));
/// assert_eq!(sandzguli::check_operators(&page), Err(Refusal::new(Rule::LimitParameter, 2)));
///
/// let page = Page::from([Record::whole(1), Record::Paren, up, limit]).to_bytes();
/// assert_eq!(sandzguli::check_operators(&page), Ok(Kind::Vector));
/// ```
pub fn check_operators(page: &[u8]) -> Result<Kind, Refusal> {
    outcome(asked(sandzguli_check_operators, page)).map(|written| written.kind)
}

/// The label of a page refused with 19, as that part of the page: the first group label that is also in the on list. It
/// may be empty.
///
/// ```
/// use sandzguli::page::{BinModifier, Cardinality, Code, LabelModifier, Page, Record};
///
/// let modifier = BinModifier {
///     matching: LabelModifier::on(["job", "cité"]),
///     cardinality: Cardinality::group_left(["cité"]),
///     ..BinModifier::default()
/// };
/// let up = Record::selector("up", []);
/// let page = Page::from([up.clone(), up, Record::binary_with(Code::Mul, modifier)]).to_bytes();
/// assert_eq!(sandzguli::joint_label(&page), Some("cité"));
/// assert_eq!(sandzguli::joint_label(b""), None);
/// ```
pub fn joint_label(page: &[u8]) -> Option<&str> {
    let refusal = check(page).err()?;
    if refusal.rule != Rule::LabelInBothLists {
        return None;
    }
    let word = asked(sandzguli_joint_label, page);
    let start = (word >> 8) as usize;
    let length = (word & 0xff) as usize;
    let label = &page[start..start + length];
    debug_assert!(from_utf8(label).is_ok());
    // SAFETY: it is the label of 19 (proved: `label_part-joint`), and that is well-formed UTF-8 (proved: `label-utf8`).
    Some(unsafe { from_utf8_unchecked(label) })
}

/// The page of the checked query: numbers under unary records are negated, set operators many-to-many, and `@` stands
/// before `offset` wherever both are set on one expression. All else is as on the page, in its order. A copy of at most
/// [`PAGE_BYTES`](crate::PAGE_BYTES) is a page: the same query, and its own copy.
///
/// ```
/// assert_eq!(sandzguli::copy(b"\x00\x00\x05\x07").unwrap(), b"\x00\x01\x05");
/// ```
///
/// Two accepted pages have equal copies if and only if they are the same query ([`same_query`](crate::same_query) says
/// what counts). So a sheet of many queries keeps their copies, and each page is copied once:
///
/// ```
/// use sandzguli::page::{AtModifier, Page, Record};
/// use std::collections::HashSet;
///
/// let [up, hour, end] = [Record::selector("up", []), Record::offset(3_600_000), Record::At(AtModifier::End)];
/// let pages = [
///     Page::from([up.clone(), hour.clone(), end.clone()]),
///     Page::from([up.clone(), hour.clone()]),
///     Page::from([up, end, hour]),
/// ];
/// let mut sheet = HashSet::new();
/// let is_new = pages.map(|page| sheet.insert(sandzguli::copy(&page.to_bytes()).unwrap()));
/// assert_eq!(is_new, [true, true, false]);
/// ```
pub fn copy(page: &[u8]) -> Result<Vec<u8>, Refusal> {
    owned(sandzguli_copy, page, COPY_BYTES)
}

/// [`copy`] into a lent buffer. A refusal changes no byte of it, an accepted call only the bytes that it reports.
///
/// ```
/// use sandzguli::{Kind, Rule};
///
/// let mut out = [7; 4];
/// let written = sandzguli::copy_into(b"\x00\x00\x05\x07", &mut out).unwrap();
/// assert_eq!((written.kind, written.bytes), (Kind::Scalar, 3));
/// assert_eq!(out, [0, 1, 5, 7]);
///
/// let refusal = sandzguli::copy_into(b"\x00\x00\x05\x07", &mut out[..2]).unwrap_err();
/// assert_eq!(refusal.rule, Rule::OutputTooShort);
/// ```
pub fn copy_into(page: &[u8], out: &mut [u8]) -> Result<Written, Refusal> {
    written(sandzguli_copy, page, out)
}

#[cfg(test)]
mod tests {
    use super::*;

    /// The word of a refusal that no archive of this version answers.
    #[test]
    fn an_unknown_number_is_a_refusal_too() {
        let refusal = outcome(1 << 63 | 200 << 16 | 7).unwrap_err();
        assert_eq!((refusal.rule, refusal.record), (Rule::Unknown(200), 7));
        assert_eq!(refusal.number(), 200);
        let words = "refused 200 at 7: a rule that this version does not know";
        assert_eq!(refusal.to_string(), words);
    }

    #[test]
    fn a_known_number_is_its_rule() {
        for rule in Rule::ALL {
            let refusal = outcome(1 << 63 | rule.number() << 16).unwrap_err();
            assert_eq!(refusal, Refusal::new(*rule, 0));
        }
    }
}
