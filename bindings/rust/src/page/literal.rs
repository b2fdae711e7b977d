//! Numbers of a query.

/// The highest digits of a fraction, and its most places.
const MAX_DIGITS: u64 = 999_999_999_999_999;
const MAX_PLACES: u64 = 15;

/// A number literal or a fill value. Magnitudes of whole numbers go up to 2^53.
#[derive(Debug, Clone, Copy, PartialEq, Eq, Hash)]
#[non_exhaustive]
pub enum Literal {
    /// A whole number from 0 on.
    Whole(u64),
    /// The negated whole number of this magnitude; 0 is minus zero.
    Negative(u64),
    /// Not a number.
    Nan,
    /// Infinity.
    Inf,
    /// Negative infinity.
    NegInf,
    /// A fraction, digits / 10^places: 0.95 has the digits 95 and 2 places. [`Literal::fraction`] makes those that a
    /// page may hold; two of them have the same value only where they are equal.
    Fraction {
        /// Whether it is negative.
        minus: bool,
        /// From 1 to 10^15 - 1, not ending in 0.
        digits: u64,
        /// How many digits are printed after the point, from 1 to 15.
        places: u64,
    },
}

impl Literal {
    /// The fraction digits / 10^places, or with `minus` its negation. `None` where a page that held it would be refused
    /// with 1: digits are from 1 to 10^15 - 1 and do not end in 0, places are from 1 to 15. So every value has one
    /// form: 0.50 is 5 with 1 place, and 5.0 is no fraction but [`Literal::Whole`].
    ///
    /// ```
    /// use sandzguli::page::{Code, LabelModifier, Literal, Page, Record};
    ///
    /// let share = Literal::fraction(false, 95, 2).unwrap();
    /// let page = Page::from([
    ///     Record::Number(share),
    ///     Record::selector("up", []),
    ///     Record::aggregate(Code::Quantile, LabelModifier::None, 2),
    /// ])
    /// .to_bytes();
    /// assert_eq!(page, b"\x00\x05\x5f\x02\x02\x02up\x00\x0a\x18\x00\x02");
    /// assert_eq!(sandzguli::canonical(&page).unwrap(), "quantile(0.95, up)");
    ///
    /// assert_eq!(Literal::fraction(false, 950, 3), None);
    /// assert_eq!(Literal::fraction(false, 1, 16), None);
    /// ```
    pub fn fraction(minus: bool, digits: u64, places: u64) -> Option<Self> {
        let has_digits = (1..=MAX_DIGITS).contains(&digits) && digits % 10 != 0;
        let has_places = (1..=MAX_PLACES).contains(&places);
        (has_digits && has_places).then_some(Self::Fraction {
            minus,
            digits,
            places,
        })
    }
}
