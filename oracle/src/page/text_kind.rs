//! The kinds of texts that records hold. Two kinds of name keep the rule of document 01; all others are UTF-8 by RFC
//! 3629 (document 02, No. 10).

use super::record::Operation;
use super::{MAX_FUNCTION_NAME_BYTES, MAX_TEXT_BYTES};

#[derive(Debug, Clone, Copy, PartialEq, Eq)]
pub enum TextKind {
    String,
    On,
    Ignoring,
    GroupLeft,
    GroupRight,
    By,
    Without,
    MatcherName,
    MatcherValue,
    Regex,
    NotRegex,
    MetricName,
    FunctionName,
}

impl TextKind {
    pub const ALL: [TextKind; 13] = [
        TextKind::String,
        TextKind::On,
        TextKind::Ignoring,
        TextKind::GroupLeft,
        TextKind::GroupRight,
        TextKind::By,
        TextKind::Without,
        TextKind::MatcherName,
        TextKind::MatcherValue,
        TextKind::Regex,
        TextKind::NotRegex,
        TextKind::MetricName,
        TextKind::FunctionName,
    ];

    /// The kind of a matcher's value: a pattern has a kind of its own.
    pub fn of_value(operation: Operation) -> Self {
        match operation {
            Operation::Equal | Operation::NotEqual => TextKind::MatcherValue,
            Operation::Regex(_) => TextKind::Regex,
            Operation::NotRegex(_) => TextKind::NotRegex,
        }
    }

    pub fn is_name(self) -> bool {
        matches!(self, TextKind::MetricName | TextKind::FunctionName)
    }

    /// Whether it is a label of a binary or an aggregate.
    pub fn is_label(self) -> bool {
        use TextKind::*;
        matches!(self, On | Ignoring | GroupLeft | GroupRight | By | Without)
    }

    pub fn is_pattern(self) -> bool {
        matches!(self, TextKind::Regex | TextKind::NotRegex)
    }

    /// The most bytes that such a text may have.
    pub fn limit(self) -> u64 {
        match self {
            TextKind::FunctionName => MAX_FUNCTION_NAME_BYTES,
            _ => MAX_TEXT_BYTES,
        }
    }

    pub fn words(self) -> &'static str {
        match self {
            TextKind::String => "string",
            TextKind::On => "label of on",
            TextKind::Ignoring => "label of ignoring",
            TextKind::GroupLeft => "label of group_left",
            TextKind::GroupRight => "label of group_right",
            TextKind::By => "label of by",
            TextKind::Without => "label of without",
            TextKind::MatcherName => "matcher name",
            TextKind::MatcherValue => "matcher value",
            TextKind::Regex => "pattern of =~",
            TextKind::NotRegex => "pattern of !~",
            TextKind::MetricName => "metric name",
            TextKind::FunctionName => "function name",
        }
    }
}
