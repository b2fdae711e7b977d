//! The matchers of a selector.

use crate::matches_empty;

/// How a matcher compares a label's value.
///
/// A pattern has a flag beside it: whether it matches empty text, for both operations. Where the pattern is covered
/// ([`matches_empty`] says which are), a wrong flag is refused with [`Rule::WrongFlag`](crate::Rule::WrongFlag). Of any
/// other pattern the flag is believed: keep it true.
#[derive(Debug, Clone, Copy, PartialEq, Eq, Hash)]
pub enum MatchOp {
    /// `=`
    Equal,
    /// `!=`
    NotEqual,
    /// `=~`
    Re {
        /// The flag: whether the pattern matches empty text.
        matches_empty: bool,
    },
    /// `!~`
    NotRe {
        /// The flag, as of `=~`: whether the pattern matches empty text, and not whether the matcher accepts it.
        matches_empty: bool,
    },
}

/// A label's name, how its value is compared, and with what.
#[derive(Debug, Clone, PartialEq, Eq, Hash)]
pub struct Matcher {
    /// How the value is compared.
    pub op: MatchOp,
    /// The label's name.
    pub name: String,
    /// The value, or the pattern.
    pub value: String,
}

impl Matcher {
    /// Any matcher. The flag of a pattern is written as it is given.
    pub fn new(op: MatchOp, name: impl Into<String>, value: impl Into<String>) -> Self {
        Self {
            op,
            name: name.into(),
            value: value.into(),
        }
    }

    /// `name="value"`
    pub fn equal(name: impl Into<String>, value: impl Into<String>) -> Self {
        Self::new(MatchOp::Equal, name, value)
    }

    /// `name!="value"`
    pub fn not_equal(name: impl Into<String>, value: impl Into<String>) -> Self {
        Self::new(MatchOp::NotEqual, name, value)
    }

    /// `name=~"pattern"`. Of a covered pattern the library knows the flag, and it is set so; of any other it is
    /// `believed`, whether the pattern matches empty text: keep it true.
    ///
    /// ```
    /// use sandzguli::page::{Matcher, Page, Record};
    ///
    /// // None of these patterns matches empty text. Of the second the library has to believe it.
    /// for pattern in ["5..", "[45].."] {
    ///     let selector = Record::selector("", [Matcher::re("code", pattern, false)]);
    ///     let page = Page::from([selector]).to_bytes();
    ///     assert_eq!(sandzguli::canonical(&page).unwrap(), format!(r#"{{code=~"{pattern}"}}"#));
    /// }
    /// // What is said of a covered pattern does not matter.
    /// assert_eq!(Matcher::re("code", "5..", true), Matcher::re("code", "5..", false));
    /// ```
    pub fn re(name: impl Into<String>, pattern: impl Into<String>, believed: bool) -> Self {
        let pattern = pattern.into();
        let matches_empty = matches_empty(&pattern).unwrap_or(believed);
        Self::new(MatchOp::Re { matches_empty }, name, pattern)
    }

    /// `name!~"pattern"`. The flag is set as [`Matcher::re`] sets it: it is the pattern's own.
    pub fn not_re(name: impl Into<String>, pattern: impl Into<String>, believed: bool) -> Self {
        let pattern = pattern.into();
        let matches_empty = matches_empty(&pattern).unwrap_or(believed);
        Self::new(MatchOp::NotRe { matches_empty }, name, pattern)
    }
}
