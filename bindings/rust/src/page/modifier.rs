//! The modifiers of binary operators and aggregators.

use super::{texts, Literal};

/// Labels that are matched or grouped by: `on` and `by` include them, `ignoring` and `without` exclude them.
#[derive(Debug, Clone, PartialEq, Eq, Hash, Default)]
pub enum LabelModifier {
    /// Not written.
    #[default]
    None,
    /// `on (..)` or `by (..)`
    Include(Vec<String>),
    /// `ignoring (..)` or `without (..)`
    Exclude(Vec<String>),
}

impl LabelModifier {
    /// `on (..)`, of a binary operator.
    pub fn on<T: Into<String>>(labels: impl IntoIterator<Item = T>) -> Self {
        Self::Include(texts(labels))
    }

    /// `ignoring (..)`, of a binary operator.
    pub fn ignoring<T: Into<String>>(labels: impl IntoIterator<Item = T>) -> Self {
        Self::Exclude(texts(labels))
    }

    /// `by (..)`, of an aggregator.
    pub fn by<T: Into<String>>(labels: impl IntoIterator<Item = T>) -> Self {
        Self::Include(texts(labels))
    }

    /// `without (..)`, of an aggregator.
    pub fn without<T: Into<String>>(labels: impl IntoIterator<Item = T>) -> Self {
        Self::Exclude(texts(labels))
    }
}

/// How many elements of one side match one of the other.
#[derive(Debug, Clone, PartialEq, Eq, Hash, Default)]
pub enum Cardinality {
    /// One to one: nothing is written.
    #[default]
    OneToOne,
    /// `group_left (..)`
    ManyToOne(Vec<String>),
    /// `group_right (..)`
    OneToMany(Vec<String>),
    /// Many to many, as set operators match.
    ManyToMany,
}

impl Cardinality {
    /// `group_left (..)`
    pub fn group_left<T: Into<String>>(labels: impl IntoIterator<Item = T>) -> Self {
        Self::ManyToOne(texts(labels))
    }

    /// `group_right (..)`
    pub fn group_right<T: Into<String>>(labels: impl IntoIterator<Item = T>) -> Self {
        Self::OneToMany(texts(labels))
    }
}

/// The modifier of a binary operator. The default one writes nothing, but is another page than none at all.
#[derive(Debug, Clone, PartialEq, Eq, Hash, Default)]
pub struct BinModifier {
    /// `bool`: a comparison gives 0 or 1.
    pub returns_bool: bool,
    /// `on (..)` or `ignoring (..)`
    pub matching: LabelModifier,
    /// `group_left (..)` or `group_right (..)`
    pub cardinality: Cardinality,
    /// `fill_left (..)`
    pub left_fill: Option<Literal>,
    /// `fill_right (..)`
    pub right_fill: Option<Literal>,
}
