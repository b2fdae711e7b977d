//! Orders of @ and offset that the copy must not have.

use super::Fault;
use oracle::page::record::Record;
use oracle::times::{self, Timed, Times};

/// Puts offset before @ again where `is_put` says so of the place among the page's times and of what has them.
pub fn put_back(
    page: &[Record],
    copied: &mut [Record],
    is_put: impl Fn(usize, usize, Timed, Times) -> bool,
) {
    let on_page = times::found(page);
    let count = on_page.len();
    let pairs = on_page.into_iter().zip(times::found(copied));
    let swapped: Vec<usize> = pairs
        .enumerate()
        .filter_map(|(place, ((_, times), (start, _)))| {
            let timed = Timed::of(&copied[start - 1])?;
            is_put(place, count, timed, times).then_some(start)
        })
        .collect();
    for start in swapped {
        copied.swap(start, start + 1);
    }
}

/// Orders of @ and offset that are the page's somewhere.
#[rustfmt::skip]
pub const ORDERS: [(&str, Fault); 7] = [
    ("the page's order", |page, copied| {
        put_back(page, copied, |_, _, _, times| times == Times::OffsetAt);
    }),
    ("the page's order on selectors", |page, copied| {
        put_back(page, copied, |_, _, timed, times| timed == Timed::Selector && times == Times::OffsetAt);
    }),
    ("the page's order on ranges", |page, copied| {
        put_back(page, copied, |_, _, timed, times| timed == Timed::Range && times == Times::OffsetAt);
    }),
    ("the page's order on subqueries", |page, copied| {
        put_back(page, copied, |_, _, timed, times| timed == Timed::Subquery && times == Times::OffsetAt);
    }),
    ("@ first once only", |page, copied| {
        put_back(page, copied, |place, _, _, times| place > 0 && times == Times::OffsetAt);
    }),
    ("@ first on the last expression only", |page, copied| {
        put_back(page, copied, |place, count, _, times| place + 1 < count && times == Times::OffsetAt);
    }),
    ("@ pulled over a subquery", |_, copied| {
        let is_over = |three: &[Record]| {
            matches!(three, [Record::Offset { .. }, Record::Subquery { .. }, Record::At(_)])
        };
        while let Some(place) = copied.windows(3).position(is_over) {
            copied[place..place + 3].rotate_right(1);
        }
    }),
];
