//! The label of 19: document 01's is the first of the group list, the Rust's any that both lists have.

use crate::page::record::*;

/// The labels of the group list that are in the on list too, in order.
pub fn joint_labels<'r, 'a>(record: &'r Record<'a>) -> impl Iterator<Item = &'r Text<'a>> {
    let (on, group) = on_and_group(record).unwrap_or_default();
    group.iter().filter(|label| is_in(on, label))
}

fn on_and_group<'r, 'a>(record: &'r Record<'a>) -> Option<(&'r [Text<'a>], &'r [Text<'a>])> {
    let Record::Binary {
        modifier: Some(modifier),
        ..
    } = record
    else {
        return None;
    };
    match (&modifier.matching, &modifier.cardinality) {
        (Matching::On(on), Cardinality::GroupLeft(group) | Cardinality::GroupRight(group)) => {
            Some((on, group))
        }
        _ => None,
    }
}

fn is_in(list: &[Text], label: &Text) -> bool {
    list.iter().any(|each| each.text == label.text)
}

/// The Rust takes its label of 19 out of a hash set: any label that both lists have.
pub fn names_common_label(record: &Record, message: &str) -> bool {
    joint_labels(record).any(|label| {
        let label = &label.text;
        message == format!("label '{label}' must not occur in ON and GROUP clause at once")
    })
}
