//! The twelve records of a page.

use super::UnknownFunction;
use super::{AtModifier, BinModifier, Code, Function, LabelModifier, Literal, Matcher, Offset};

/// A record. All times are in milliseconds.
#[derive(Debug, Clone, PartialEq, Eq, Hash)]
#[non_exhaustive]
pub enum Record {
    /// A number; takes no operand.
    Number(Literal),
    /// A string; takes no operand.
    String(String),
    /// A selector; takes no operand.
    Selector {
        /// The metric's name: ASCII letters, digits, `_` and `:`, not a digit first. Empty where there is none.
        name: String,
        /// At most 16.
        matchers: Vec<Matcher>,
    },
    /// `[5m]` on a selector.
    Range(u64),
    /// `[5m:1m]` on a vector.
    Subquery {
        /// How far it goes back.
        range: u64,
        /// How far apart its points are, where that is written.
        step: Option<u64>,
    },
    /// `@` on a selector, range or subquery.
    At(AtModifier),
    /// `offset` on a selector, range or subquery.
    Offset(Offset),
    /// `-` before an operand.
    Unary,
    /// Round brackets.
    Paren,
    /// An operator between two operands.
    Binary {
        /// The operator.
        code: Code,
        /// What stands after it.
        modifier: Option<BinModifier>,
    },
    /// An aggregator over its arguments.
    Aggregate {
        /// The aggregator.
        code: Code,
        /// `by (..)` or `without (..)`
        grouping: LabelModifier,
        /// How many operands it takes: 1, or 2 with a parameter.
        arguments: usize,
    },
    /// A function's call.
    Call {
        /// The function as this page declares it.
        function: Function,
        /// How many operands it takes, at most 16.
        arguments: usize,
    },
}

impl Record {
    /// A whole number.
    pub fn whole(magnitude: u64) -> Self {
        Self::Number(Literal::Whole(magnitude))
    }

    /// A string.
    pub fn string(text: impl Into<String>) -> Self {
        Self::String(text.into())
    }

    /// A selector by name, matchers or both.
    pub fn selector(name: impl Into<String>, matchers: impl IntoIterator<Item = Matcher>) -> Self {
        Self::Selector {
            name: name.into(),
            matchers: matchers.into_iter().collect(),
        }
    }

    /// `offset`, into the past.
    pub fn offset(milliseconds: u64) -> Self {
        Self::Offset(Offset::Plus(milliseconds))
    }

    /// `offset -`, into the future.
    pub fn offset_minus(milliseconds: u64) -> Self {
        Self::Offset(Offset::Minus(milliseconds))
    }

    /// An operator without modifier.
    pub fn binary(code: Code) -> Self {
        Self::Binary {
            code,
            modifier: None,
        }
    }

    /// An operator with a modifier.
    ///
    /// ```
    /// use sandzguli::page::{BinModifier, Code, LabelModifier, Literal, Page, Record};
    ///
    /// let modifier = BinModifier {
    ///     matching: LabelModifier::on(["job"]),
    ///     left_fill: Some(Literal::Whole(0)),
    ///     ..BinModifier::default()
    /// };
    /// let up = Record::selector("up", []);
    /// let page = Page::from([up.clone(), up, Record::binary_with(Code::Sub, modifier)]);
    /// assert_eq!(sandzguli::canonical(&page.to_bytes()).unwrap(), "up - on (job) fill_left (0) up");
    /// ```
    pub fn binary_with(code: Code, modifier: BinModifier) -> Self {
        Self::Binary {
            code,
            modifier: Some(modifier),
        }
    }

    /// An aggregator over so many operands.
    pub fn aggregate(code: Code, grouping: LabelModifier, arguments: usize) -> Self {
        Self::Aggregate {
            code,
            grouping,
            arguments,
        }
    }

    /// A function's call with so many operands.
    pub fn call(function: Function, arguments: usize) -> Self {
        Self::Call {
            function,
            arguments,
        }
    }

    /// The call of a function that the table has, with the signature that it has there.
    ///
    /// ```
    /// use sandzguli::page::{Page, Record, UnknownFunction};
    ///
    /// fn clamped(highest: u64) -> Result<Page, UnknownFunction> {
    ///     let up = Record::selector("up", []);
    ///     let clamp = Record::call_known("clamp_max", 2)?;
    ///     Ok(Page::from([up, Record::whole(highest), clamp]))
    /// }
    ///
    /// let page = clamped(5)?.to_bytes();
    /// assert!(sandzguli::check_table(&page).is_ok());
    /// assert_eq!(sandzguli::canonical(&page).unwrap(), "clamp_max(up, 5)");
    /// assert_eq!(Record::call_known("clamp_maximum", 2).unwrap_err().name, "clamp_maximum");
    /// # Ok::<(), UnknownFunction>(())
    /// ```
    pub fn call_known(name: impl Into<String>, arguments: usize) -> Result<Self, UnknownFunction> {
        Ok(Self::call(Function::known(name)?, arguments))
    }

    /// How many operands the record takes from the stack.
    pub fn operands(&self) -> usize {
        match self {
            Record::Number(_) | Record::String(_) | Record::Selector { .. } => 0,
            Record::Binary { .. } => 2,
            Record::Aggregate { arguments, .. } | Record::Call { arguments, .. } => *arguments,
            _ => 1,
        }
    }
}
