//! The refusals, named as in the library.

use crate::name::refusal_name;
use std::error::Error;
use std::fmt;

/// Why a page is refused, and where.
#[derive(Debug, Clone, Copy, PartialEq, Eq, Hash)]
#[non_exhaustive]
pub struct Refusal {
    /// The rule that the page breaks.
    pub rule: Rule,
    /// The record that breaks it, counted from 0; the number of records where none of them does. 0 where no page was
    /// asked about.
    pub record: usize,
}

impl Refusal {
    /// A refusal that no call gave, to compare with or to hand on.
    pub const fn new(rule: Rule, record: usize) -> Self {
        Self { rule, record }
    }

    /// The rule's number.
    pub fn number(self) -> u64 {
        self.rule.number()
    }

    /// The rule's name.
    pub fn name(self) -> &'static str {
        self.rule.name()
    }
}

/// Number, record and name. The name of a rule that this binding does not know is the archive's, if it has one.
///
/// ```
/// use sandzguli::{Refusal, Rule};
///
/// let refusal = Refusal::new(Rule::SideKind, 2);
/// assert_eq!(refusal.to_string(), "refused 22 at 2: a side is a string or a matrix");
/// ```
impl fmt::Display for Refusal {
    fn fmt(&self, f: &mut fmt::Formatter) -> fmt::Result {
        write!(f, "refused {} at {}: ", self.number(), self.record)?;
        match self.rule {
            Rule::Unknown(number) => match refusal_name(number.into()) {
                Some(name) => f.write_str(&name),
                None => f.write_str(self.name()),
            },
            _ => f.write_str(self.name()),
        }
    }
}

impl Error for Refusal {}

/// The rules, each with its number, its case and its name, and what else is to be said of it.
macro_rules! rules {
    ($($(#[$words:meta])* $number:literal $rule:ident $name:literal,)*) => {
        /// What a page breaks: the rows of the refusal table (docs/REFUSALS.md), in its order.
        #[derive(Debug, Clone, Copy, PartialEq, Eq, Hash)]
        #[non_exhaustive]
        pub enum Rule {
            $(#[doc = $name] $(#[doc = ""] #[$words])* $rule,)*
            /// A number that none of these has: that of an archive which is newer than this binding.
            Unknown(u8),
        }

        impl Rule {
            /// All rules that are known, in the order of their numbers.
            pub const ALL: &'static [Rule] = &[$(Rule::$rule,)*];

            /// The rule's number in the refusal table.
            ///
            /// ```
            /// use sandzguli::Rule;
            ///
            /// assert_eq!(Rule::LabelInBothLists.number(), 19);
            /// assert_eq!(Rule::Unknown(200).number(), 200);
            /// ```
            pub fn number(self) -> u64 {
                match self {
                    $(Rule::$rule => $number,)*
                    Rule::Unknown(number) => number.into(),
                }
            }

            /// What the page breaks, in a few words for those who repair it.
            ///
            /// ```
            /// assert_eq!(sandzguli::Rule::ScalarsCompared.name(), "two scalars compared without bool");
            /// ```
            pub fn name(self) -> &'static str {
                match self {
                    $(Rule::$rule => $name,)*
                    Rule::Unknown(_) => "a rule that this version does not know",
                }
            }
        }
    };
}

rules! {
    /// Of a fraction also digits or places outside their ranges: see
    /// [`Literal::fraction`](crate::page::Literal::fraction).
    1 BadField "record cut short, bad number or code",
    2 OperandsMissing "operands missing, or not one expression at the end",
    3 PastLimit "a limit passed (page, records, text, list, count or time)",
    /// In a string, a label or a matcher: ill-formed UTF-8, such as a text that ends inside a character.
    4 BadText "text not allowed, or not a name",
    5 OutputTooShort "the lent buffer is too short",
    6 UnaryOnLiteral "unary on a string literal or range selector",
    7 RangeAfterOffset "range after offset",
    8 RangeAfterAt "range after @",
    9 RangeOnNoSelector "range on anything but a selector",
    10 AtTwice "@ set already",
    11 AtOnNoSelector "@ on no selector, range or subquery",
    12 OffsetTwice "offset set already",
    13 OffsetOnNoSelector "offset on no selector, range or subquery",
    14 AggregateOfNothing "aggregate of 0 arguments",
    15 ArgumentCount "aggregate of another count than 1, or 2 with a parameter",
    16 AggregatorAsOperator "binary code is an aggregator",
    17 BoolWithoutComparison "bool without comparison",
    18 ScalarsCompared "two scalars compared without bool",
    /// [`joint_label`](crate::joint_label) finds it.
    19 LabelInBothLists "a label in both on and group",
    20 SetOfScalar "a side of a set operator is a scalar",
    21 SetGrouped "set operator between vectors has a grouping",
    22 SideKind "a side is a string or a matrix",
    23 MatchingWithoutVectors "matching labels, but a side is no vector",
    24 OperatorAsAggregator "aggregate code is an operator",
    25 AggregateKind "aggregate operand is no vector, or parameter of the wrong kind",
    26 FixedArity "fixed signature with another count of arguments",
    27 TooFewArguments "fewer arguments than declared kinds less one",
    28 TooManyArguments "more arguments than declared kinds less one plus the upper extra",
    29 NoDeclaredKinds "arguments, but no declared kinds",
    30 ArgumentKind "argument of another kind than declared",
    31 UnaryKind "unary operand is no scalar or vector",
    32 SubqueryKind "subquery operand is no vector",
    33 NameTwice "metric name and a __name__ matcher",
    34 EmptySelector "no name, and no matcher or only ones that accept empty text",
    /// Of [`check_table`](crate::check_table), [`check_older`](crate::check_older),
    /// [`check_newer`](crate::check_newer) and [`signature_into`](crate::signature_into) only, each by its own table.
    37 UnknownFunction "a function that the table does not have",
    /// Of [`check_table`](crate::check_table), [`check_older`](crate::check_older) and
    /// [`check_newer`](crate::check_newer) only. [`signature`](crate::signature) tells the right one, and
    /// [`Record::call_known`](crate::page::Record::call_known) sets it.
    38 UnlikeSignature "a signature unlike the function table's",
    /// [`matches_empty`](crate::matches_empty) tells the right one, and [`Matcher::re`](crate::page::Matcher::re) sets
    /// it.
    41 WrongFlag "the flag of a pattern is wrong: 1 if it matches empty text, else 0",
    /// Of [`check_operators`](crate::check_operators) only: by its kind, not by what it is.
    42 LimitParameter "the parameter of limitk or limit_ratio is no scalar",
}

impl Rule {
    /// The rule of a number, if it is known.
    ///
    /// ```
    /// use sandzguli::Rule;
    ///
    /// assert_eq!(Rule::of_number(22), Some(Rule::SideKind));
    /// assert_eq!(Rule::of_number(0), None);
    /// // Not all numbers up to the highest are rules.
    /// assert_eq!(Rule::of_number(40), None);
    /// assert_eq!(Rule::of_number(41), Some(Rule::WrongFlag));
    /// ```
    pub fn of_number(number: u64) -> Option<Self> {
        let has_number = |rule: &Rule| rule.number() == number;
        Self::ALL.iter().copied().find(has_number)
    }

    /// The rule of the number in a word.
    pub(crate) fn of_byte(number: u8) -> Self {
        Self::of_number(number.into()).unwrap_or(Self::Unknown(number))
    }
}
