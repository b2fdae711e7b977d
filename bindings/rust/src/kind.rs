//! The kinds of queries.

use std::fmt;

/// What a query gives.
#[derive(Debug, Clone, Copy, PartialEq, Eq, Hash)]
pub enum Kind {
    /// An instant vector.
    Vector,
    /// A number.
    Scalar,
    /// A range vector.
    Matrix,
    /// A string.
    String,
}

impl Kind {
    /// All kinds, in the order of their numbers.
    pub const ALL: [Kind; 4] = [Kind::Vector, Kind::Scalar, Kind::Matrix, Kind::String];

    /// The number that stands for the kind on a page and in an answer.
    ///
    /// ```
    /// assert_eq!(sandzguli::Kind::Matrix.number(), 2);
    /// ```
    pub fn number(self) -> u64 {
        self as u64
    }

    /// The kind that a number stands for.
    pub fn of_number(number: u64) -> Option<Self> {
        Self::ALL.into_iter().find(|kind| kind.number() == number)
    }
}

/// The word that the Prometheus documents and the Rust use.
///
/// ```
/// assert_eq!(sandzguli::Kind::Vector.to_string(), "vector");
/// ```
impl fmt::Display for Kind {
    fn fmt(&self, f: &mut fmt::Formatter) -> fmt::Result {
        f.write_str(match self {
            Kind::Vector => "vector",
            Kind::Scalar => "scalar",
            Kind::Matrix => "matrix",
            Kind::String => "string",
        })
    }
}
