//! Pages with offset and then @, of which the copy is another: how many times and where, how long page and copy are,
//! what else the copy changes, and buffers with just enough room for it and one byte less.

use super::super::Coverage;
use crate::answer::{Answer, Outcome, Worked};
use crate::generate::times::long::LONGEST_COPY;
use crate::page::code::is_set_operator;
use crate::page::record::*;
use crate::page::MAX_PAGE_BYTES;
use crate::times::{self, Times};

#[rustfmt::skip]
const NAMED: &[&str] = &[
    "times: offset then @ once", "times: offset then @ twice", "times: offset then @ 64 times",
    "times: offset then @ and @ then offset on one page", "times: the @ behind an offset is record 2",
    "times: the @ behind an offset is record 255", "times: offset then @, a page of 8,192 bytes",
    "times: offset then @, a copy of 8,192 bytes, longer than its page", "times: offset then @, a copy of 8,193 bytes",
    "times: offset then @, a copy of more than 8,192 bytes", "times: offset then @, the longest copy",
    "times: offset then @ behind a negated number", "times: offset then @ before a negated number",
    "times: offset then @, a set operator without modifier behind",
    "times: offset then @, a set operator one-to-one behind", "times: offset then @, room for just the copy",
    "times: offset then @, room for one byte less",
];

pub(super) fn classes() -> Vec<String> {
    NAMED.iter().map(ToString::to_string).collect()
}

/// Whether a number and a unary record stand there.
fn has_negated(records: &[Record]) -> bool {
    let is_negated = |pair: &[Record]| matches!(pair, [Record::Number(_), Record::Unary]);
    records.windows(2).any(is_negated)
}

/// A set operator that is many-to-many in the copy only.
fn changed_operator(record: &Record) -> Option<&'static str> {
    match record {
        Record::Binary { code, modifier } if is_set_operator(*code) => match modifier {
            None => Some("without modifier"),
            Some(modifier) if modifier.cardinality == Cardinality::OneToOne => Some("one-to-one"),
            Some(_) => None,
        },
        _ => None,
    }
}

impl Coverage {
    pub(super) fn swapped_times(&mut self, worked: &Worked, answer: &Answer) {
        let records = &worked.records;
        let found = times::found(records);
        let is_swapped = |(_, times): &&(usize, Times)| *times == Times::OffsetAt;
        let starts: Vec<usize> = found.iter().filter(is_swapped).map(|each| each.0).collect();
        let [first, .., last] = starts.as_slice() else {
            let [only] = starts.as_slice() else { return };
            self.hit("times: offset then @ once");
            return self.swapped_between(worked, answer, *only, *only);
        };
        self.hit_if(starts.len() == 2, "times: offset then @ twice");
        self.hit_if(starts.len() == 64, "times: offset then @ 64 times");
        self.swapped_between(worked, answer, *first, *last);
    }

    /// The first and the last offset that has an @ behind it.
    fn swapped_between(&mut self, worked: &Worked, answer: &Answer, first: usize, last: usize) {
        let records = &worked.records;
        let has_other = times::found(records)
            .iter()
            .any(|(_, times)| *times == Times::AtOffset);
        self.hit_if(
            has_other,
            "times: offset then @ and @ then offset on one page",
        );
        self.hit_if(first == 1, "times: the @ behind an offset is record 2");
        self.hit_if(last == 254, "times: the @ behind an offset is record 255");
        let [before, behind] = [&records[..last], &records[first..]].map(has_negated);
        self.hit_if(before, "times: offset then @ behind a negated number");
        self.hit_if(behind, "times: offset then @ before a negated number");
        for words in records[first..].iter().filter_map(changed_operator) {
            self.hit(format!(
                "times: offset then @, a set operator {words} behind"
            ));
        }
        self.swapped_sizes(worked.page.len(), answer);
    }

    fn swapped_sizes(&mut self, page: usize, answer: &Answer) {
        let copy = answer.copy.len();
        let is_page_full = page == MAX_PAGE_BYTES;
        self.hit_if(is_page_full, "times: offset then @, a page of 8,192 bytes");
        let is_copy_full = copy == MAX_PAGE_BYTES && copy > page;
        let class = "times: offset then @, a copy of 8,192 bytes, longer than its page";
        self.hit_if(is_copy_full, class);
        let is_next = copy == MAX_PAGE_BYTES + 1;
        self.hit_if(is_next, "times: offset then @, a copy of 8,193 bytes");
        let is_longer = copy > MAX_PAGE_BYTES;
        let class = "times: offset then @, a copy of more than 8,192 bytes";
        self.hit_if(is_longer, class);
        let is_longest = copy == LONGEST_COPY;
        self.hit_if(is_longest, "times: offset then @, the longest copy");
        let [just, less] = [copy, copy - 1].map(|lent| answer.outcome_lent(&answer.copy, lent));
        let is_written = just == answer.outcome;
        self.hit_if(is_written, "times: offset then @, room for just the copy");
        let short = Outcome::Refused {
            number: 5,
            record: answer.records,
        };
        self.hit_if(
            less == short,
            "times: offset then @, room for one byte less",
        );
    }
}
