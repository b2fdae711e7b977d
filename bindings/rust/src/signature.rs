//! The function table: the signature of a function, by its name.

use crate::call::{owned, written};
use crate::page::{read_signature, Signature};
use crate::{Refusal, Written, SIGNATURE_BYTES};

extern "C" {
    fn sandzguli_signature(name: *const u8, name_len: usize, out: *mut u8, out_len: usize) -> u64;
}

/// The signature that the function table has for a name. `None` where it lacks the name: names are compared byte by
/// byte, and any byte string may be asked about. The table is that of the Rust crate promql-parser, 91 names.
///
/// ```
/// use sandzguli::page::{Signature, Variadic};
/// use sandzguli::Kind;
///
/// let round = Signature {
///     kinds: vec![Kind::Vector, Kind::Scalar],
///     variadic: Variadic::UpTo(1),
///     result: Kind::Vector,
/// };
/// assert_eq!(sandzguli::signature("round"), Some(round));
/// assert_eq!(sandzguli::signature("Round"), None);
/// // An aggregator is no function.
/// assert_eq!(sandzguli::signature("sum"), None);
/// ```
///
/// A name has the same signature in the tables of the two server generations ([`check_older`](crate::check_older),
/// [`check_newer`](crate::check_newer)), where these have it. `holt_winters`, which the older has alone, has that of
/// `double_exponential_smoothing`.
///
/// [`Function::known`](crate::page::Function::known) is the function with its signature, and
/// [`Record::call_known`](crate::page::Record::call_known) its call. A call record with this name and these bytes is one
/// of the table (proved: `signature-signs`).
pub fn signature(name: impl AsRef<[u8]>) -> Option<Signature> {
    let bytes = owned(sandzguli_signature, name.as_ref(), SIGNATURE_BYTES).ok()?;
    Some(read_signature(&bytes).expect("it is written as it stands on a page"))
}

/// The bytes of [`signature`], as they stand in a call record behind the name, into a lent buffer; in the record the
/// count of arguments follows. Refused with [`Rule::UnknownFunction`](crate::Rule::UnknownFunction), else with
/// [`Rule::OutputTooShort`](crate::Rule::OutputTooShort), both at 0. A refusal changes no byte, an accepted call only
/// the bytes that it reports.
///
/// ```
/// use sandzguli::{Kind, Rule, SIGNATURE_BYTES};
///
/// // One kind, a vector; as many arguments; the result is a scalar.
/// let mut out = [7; SIGNATURE_BYTES];
/// let written = sandzguli::signature_into("scalar", &mut out).unwrap();
/// assert_eq!((written.kind, written.bytes), (Kind::Scalar, 4));
/// assert_eq!(out, [1, 0, 0, 1, 7, 7, 7, 7]);
///
/// let refusal = sandzguli::signature_into("scalar", &mut out[..3]).unwrap_err();
/// assert_eq!(refusal.rule, Rule::OutputTooShort);
/// let refusal = sandzguli::signature_into("", &mut out).unwrap_err();
/// assert_eq!(refusal.rule, Rule::UnknownFunction);
/// ```
pub fn signature_into(name: impl AsRef<[u8]>, out: &mut [u8]) -> Result<Written, Refusal> {
    written(sandzguli_signature, name.as_ref(), out)
}
