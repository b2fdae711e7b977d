//! The twelve records of document 01, 'The page', with the texts lying on the page or owned.

pub use super::number::{Fraction, Holder, Number};

use std::borrow::Cow;

/// A text and where its first byte lies on the page.
#[derive(Debug, Clone, PartialEq)]
pub struct Text<'a> {
    pub start: usize,
    pub text: Cow<'a, str>,
}

impl From<&str> for Text<'static> {
    fn from(text: &str) -> Self {
        Text {
            start: 0,
            text: Cow::Owned(text.to_string()),
        }
    }
}

#[derive(Debug, Clone, Copy, PartialEq, Eq)]
pub enum Kind {
    Vector,
    Scalar,
    Matrix,
    String,
}

impl Kind {
    pub const ALL: [Kind; 4] = [Kind::Vector, Kind::Scalar, Kind::Matrix, Kind::String];

    pub fn number(self) -> u64 {
        self as u64
    }
}

#[derive(Debug, Clone, Copy, PartialEq, Eq)]
pub enum Operation {
    Equal,
    NotEqual,
    /// `=~`, with the flag: the pattern matches empty text.
    Regex(bool),
    /// `!~`, with the flag: the pattern matches empty text.
    NotRegex(bool),
}

impl Operation {
    /// The flag of a pattern; `=` and `!=` have none.
    pub fn flag(self) -> Option<bool> {
        match self {
            Operation::Equal | Operation::NotEqual => None,
            Operation::Regex(flag) | Operation::NotRegex(flag) => Some(flag),
        }
    }
}

#[derive(Debug, Clone, PartialEq)]
pub struct Matcher<'a> {
    pub operation: Operation,
    pub name: Text<'a>,
    pub value: Text<'a>,
}

impl Matcher<'_> {
    /// Whether empty text is accepted; of a pattern the flag says so.
    pub fn accepts_empty(&self) -> bool {
        match self.operation {
            Operation::Equal => self.value.text.is_empty(),
            Operation::NotEqual => !self.value.text.is_empty(),
            Operation::Regex(flag) => flag,
            Operation::NotRegex(flag) => !flag,
        }
    }
}

#[derive(Debug, Clone, Copy, PartialEq, Eq)]
pub enum At {
    Start,
    End,
    After(u64),
    Before(u64),
}

pub type Labels<'a> = Vec<Text<'a>>;

#[derive(Debug, Clone, PartialEq)]
pub enum Matching<'a> {
    None,
    On(Labels<'a>),
    Ignoring(Labels<'a>),
}

#[derive(Debug, Clone, PartialEq)]
pub enum Cardinality<'a> {
    OneToOne,
    GroupLeft(Labels<'a>),
    GroupRight(Labels<'a>),
    ManyToMany,
}

#[derive(Debug, Clone, PartialEq)]
pub struct Modifier<'a> {
    pub is_bool: bool,
    pub matching: Matching<'a>,
    pub cardinality: Cardinality<'a>,
    pub left_fill: Option<Number>,
    pub right_fill: Option<Number>,
}

impl Modifier<'_> {
    /// A modifier that says nothing.
    pub const EMPTY: Self = Modifier {
        is_bool: false,
        matching: Matching::None,
        cardinality: Cardinality::OneToOne,
        left_fill: None,
        right_fill: None,
    };
}

#[derive(Debug, Clone, PartialEq)]
pub enum Grouping<'a> {
    None,
    By(Labels<'a>),
    Without(Labels<'a>),
}

#[derive(Debug, Clone, Copy, PartialEq, Eq)]
pub enum Extra {
    Fixed,
    Unlimited,
    Upper(u64),
}

#[derive(Debug, Clone, PartialEq)]
pub struct Signature<'a> {
    pub name: Text<'a>,
    pub kinds: Vec<Kind>,
    pub extra: Extra,
    pub result: Kind,
}

#[derive(Debug, Clone, PartialEq)]
pub enum Record<'a> {
    Number(Number),
    String(Text<'a>),
    Selector {
        name: Text<'a>,
        matchers: Vec<Matcher<'a>>,
    },
    Range(u64),
    Subquery {
        range: u64,
        step: Option<u64>,
    },
    At(At),
    Offset {
        is_minus: bool,
        milliseconds: u64,
    },
    Unary,
    Paren,
    Binary {
        code: u8,
        modifier: Option<Modifier<'a>>,
    },
    Aggregate {
        code: u8,
        grouping: Grouping<'a>,
        arguments: usize,
    },
    Call {
        signature: Signature<'a>,
        arguments: usize,
    },
}

impl Record<'_> {
    /// The first number of the record on the page.
    pub fn kind_number(&self) -> u8 {
        match self {
            Record::Number(_) => 0,
            Record::String(_) => 1,
            Record::Selector { .. } => 2,
            Record::Range(_) => 3,
            Record::Subquery { .. } => 4,
            Record::At(_) => 5,
            Record::Offset { .. } => 6,
            Record::Unary => 7,
            Record::Paren => 8,
            Record::Binary { .. } => 9,
            Record::Aggregate { .. } => 10,
            Record::Call { .. } => 11,
        }
    }

    /// How many operands the record takes from the stack.
    pub fn operands(&self) -> usize {
        match self {
            Record::Number(_) | Record::String(_) | Record::Selector { .. } => 0,
            Record::Binary { .. } => 2,
            Record::Aggregate { arguments, .. } | Record::Call { arguments, .. } => *arguments,
            _ => 1,
        }
    }
}
