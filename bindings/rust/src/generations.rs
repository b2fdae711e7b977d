//! The two server generations: which of them accept a query, and why one does not.

use crate::call::{asked, outcome};
use crate::{Kind, Refusal};
use std::fmt;

extern "C" {
    fn sandzguli_check_older(page: *const u8, page_len: usize) -> u64;
    fn sandzguli_check_newer(page: *const u8, page_len: usize) -> u64;
    fn sandzguli_generations(page: *const u8, page_len: usize) -> u64;
}

/// Which server generations accept a query: the older is Prometheus 2.55, the newer 3.0.
#[derive(Debug, Clone, Copy, PartialEq, Eq, Hash)]
pub enum Generations {
    /// Neither of the two.
    Neither,
    /// The older alone.
    Older,
    /// The newer alone.
    Newer,
    /// Both of them.
    Both,
}

impl Generations {
    /// All answers, in the order of their numbers.
    pub const ALL: [Generations; 4] = [
        Generations::Neither,
        Generations::Older,
        Generations::Newer,
        Generations::Both,
    ];

    /// The number that stands for the answer in C.
    ///
    /// ```
    /// assert_eq!(sandzguli::Generations::Newer.number(), 2);
    /// ```
    pub fn number(self) -> u64 {
        self as u64
    }

    /// The answer that a number stands for.
    pub fn of_number(number: u64) -> Option<Self> {
        Self::ALL.into_iter().find(|each| each.number() == number)
    }

    /// Whether the older generation, Prometheus 2.55, accepts the query.
    ///
    /// ```
    /// use sandzguli::Generations;
    ///
    /// let accepting = Generations::ALL.map(Generations::older_accepts);
    /// assert_eq!(accepting, [false, true, false, true]);
    /// ```
    pub fn older_accepts(self) -> bool {
        matches!(self, Generations::Older | Generations::Both)
    }

    /// Whether the newer generation, Prometheus 3.0, accepts the query.
    ///
    /// ```
    /// use sandzguli::Generations;
    ///
    /// let accepting = Generations::ALL.map(Generations::newer_accepts);
    /// assert_eq!(accepting, [false, false, true, true]);
    /// ```
    pub fn newer_accepts(self) -> bool {
        matches!(self, Generations::Newer | Generations::Both)
    }
}

/// The servers that accept the query, in words for people.
///
/// ```
/// let accepting = sandzguli::generations(b"\x02\x02up\x00");
/// assert_eq!(format!("accepted by {accepting}"), "accepted by Prometheus 2.55 and 3.0");
/// ```
impl fmt::Display for Generations {
    fn fmt(&self, f: &mut fmt::Formatter) -> fmt::Result {
        f.write_str(match self {
            Generations::Neither => "neither Prometheus 2.55 nor 3.0",
            Generations::Older => "Prometheus 2.55 alone",
            Generations::Newer => "Prometheus 3.0 alone",
            Generations::Both => "Prometheus 2.55 and 3.0",
        })
    }
}

/// [`check_table`](crate::check_table) with the functions of the older server generation, Prometheus 2.55, in place of
/// the function table.
///
/// These are 77, with the signatures of the function table. 15 names of that table are missing (docs/PAGE.md has them),
/// and `holt_winters` is there, with the signature of `double_exponential_smoothing`, which is the newer's name for it.
/// Experimental functions are among them, though a server takes these only with its flag.
///
/// A page that passes, [`check`](crate::check) accepts with the same kind (proved: `table-accepted`), and so does
/// [`check_table`](crate::check_table) if no call of `holt_winters` stands on it (`older-table`). A page that is
/// refused with another rule than [`Rule::UnknownFunction`](crate::Rule::UnknownFunction) and
/// [`Rule::UnlikeSignature`](crate::Rule::UnlikeSignature), [`check`](crate::check) refuses with it at the same record
/// (`table-refused`). That rule never is [`Rule::NoDeclaredKinds`](crate::Rule::NoDeclaredKinds) (`table_of-no-29`).
///
/// ```
/// use sandzguli::page::{Function, Page, Record};
/// use sandzguli::{Kind, Refusal, Rule};
///
/// // No call by name, since the function table lacks holt_winters.
/// let signature = sandzguli::signature("double_exponential_smoothing").unwrap();
/// let holt_winters = Function::new("holt_winters", signature);
/// let up = [Record::selector("up", []), Record::Range(300_000)];
/// let factors = [Record::whole(1), Record::whole(1)];
/// let records = up.into_iter().chain(factors).chain([Record::call(holt_winters, 3)]);
/// let page = Page::from_iter(records).to_bytes();
/// assert_eq!(sandzguli::canonical(&page).unwrap(), "holt_winters(up[5m], 1, 1)");
/// assert_eq!(sandzguli::check_older(&page), Ok(Kind::Vector));
/// assert_eq!(sandzguli::check_newer(&page), Err(Refusal::new(Rule::UnknownFunction, 4)));
/// assert_eq!(sandzguli::check_table(&page), Err(Refusal::new(Rule::UnknownFunction, 4)));
/// ```
pub fn check_older(page: &[u8]) -> Result<Kind, Refusal> {
    outcome(asked(sandzguli_check_older, page)).map(|written| written.kind)
}

/// [`check_table`](crate::check_table) with the functions of the newer server generation, Prometheus 3.0, in place of
/// the function table.
///
/// These are 77, with the signatures of the function table. 14 names of that table are missing (docs/PAGE.md has them).
/// Experimental functions are among them, though a server takes these only with its flag.
///
/// A page that passes, [`check`](crate::check) accepts with the same kind (proved: `table-accepted`), and so does
/// [`check_table`](crate::check_table) (`newer-table`). A page that is refused with another rule than
/// [`Rule::UnknownFunction`](crate::Rule::UnknownFunction) and [`Rule::UnlikeSignature`](crate::Rule::UnlikeSignature),
/// [`check`](crate::check) refuses with it at the same record (`table-refused`). That rule never is
/// [`Rule::NoDeclaredKinds`](crate::Rule::NoDeclaredKinds) (`table_of-no-29`).
///
/// ```
/// use sandzguli::page::{Page, Record};
/// use sandzguli::{Kind, Refusal, Rule};
///
/// let call = |name| {
///     let call = Record::call_known(name, 1).unwrap();
///     Page::from([Record::selector("up", []), Record::Range(300_000), call]).to_bytes()
/// };
/// assert_eq!(sandzguli::check_newer(&call("last_over_time")), Ok(Kind::Vector));
///
/// // The function table has it, but no server of this generation.
/// let page = call("first_over_time");
/// assert_eq!(sandzguli::check_table(&page), Ok(Kind::Vector));
/// assert_eq!(sandzguli::check_newer(&page), Err(Refusal::new(Rule::UnknownFunction, 2)));
/// ```
pub fn check_newer(page: &[u8]) -> Result<Kind, Refusal> {
    outcome(asked(sandzguli_check_newer, page)).map(|written| written.kind)
}

/// Which server generations accept the query that a page holds, each by its own check: Prometheus 2.55 by
/// [`check_older`], 3.0 by [`check_newer`]. Any byte string may be asked about, and has one of the four answers; a page
/// that cannot be read is accepted by neither. Why a generation refuses is asked with its check.
///
/// The answer tells which of the two checks accept (proved: `generations-tells`), and they tell the answer
/// (`tells-generations`). Other than [`Generations::Neither`] it means that [`check`](crate::check) accepts the page,
/// with the kind that the accepting checks give (`generations-check`, `accepts-check`). Only pages with a call of
/// `holt_winters` are the older's alone (`older-calls`), only pages with a call of `double_exponential_smoothing` the
/// newer's alone (`newer-calls`); of a page with neither call both checks say the same (`uncalled-same`). Nothing but
/// names and signatures of calls is judged otherwise than by [`check`](crate::check): `limitk` with a string as its
/// parameter is accepted by both.
///
/// ```
/// use sandzguli::page::{Page, Record};
/// use sandzguli::Generations;
///
/// let up = Record::selector("up", []);
/// let page = |name| Page::from([up.clone(), Record::call_known(name, 1).unwrap()]).to_bytes();
/// assert_eq!(sandzguli::generations(&page("abs")), Generations::Both);
/// assert_eq!(sandzguli::generations(&page("start_timestamp")), Generations::Neither);
/// assert_eq!(sandzguli::generations(b""), Generations::Neither);
/// ```
pub fn generations(page: &[u8]) -> Generations {
    Generations::of_number(asked(sandzguli_generations, page)).expect("one of the four answers")
}
