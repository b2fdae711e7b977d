//! The times of a selector, range or subquery.

/// When an expression is worked out. Times go up to 10^15 milliseconds from 1970 on.
#[derive(Debug, Clone, Copy, PartialEq, Eq, Hash)]
pub enum AtModifier {
    /// `@ start()`
    Start,
    /// `@ end()`
    End,
    /// So many milliseconds after the start of 1970.
    After(u64),
    /// So many milliseconds before the start of 1970, at least 1.
    Before(u64),
}

/// By how much an expression is moved, in milliseconds.
#[derive(Debug, Clone, Copy, PartialEq, Eq, Hash)]
pub enum Offset {
    /// `offset 5m`: into the past.
    Plus(u64),
    /// `offset -5m`: into the future.
    Minus(u64),
}
