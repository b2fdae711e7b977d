//! What can be read of a selector or of a call before its first faulty field.

use super::super::record::{Matcher, Text};
use super::super::text_kind::TextKind;
use super::{is_function_name, is_metric_name_or_empty, Reader};

impl<'a> Reader<'a> {
    /// The first matchers of a selector, up to one that cannot be read; of another record none.
    pub fn first_matchers(&mut self) -> Vec<Matcher<'a>> {
        let is_selector = self.choice(12) == Ok(2)
            && self
                .name(TextKind::MetricName, is_metric_name_or_empty)
                .is_ok();
        let count = match is_selector {
            true => self.count().unwrap_or(0),
            false => 0,
        };
        (0..count).map_while(|_| self.matcher().ok()).collect()
    }

    /// The name of a call; of another record, or where it cannot be read, none.
    pub fn called_name(&mut self) -> Option<Text<'a>> {
        match self.choice(12) {
            Ok(11) => self.name(TextKind::FunctionName, is_function_name).ok(),
            _ => None,
        }
    }
}
