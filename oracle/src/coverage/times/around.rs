//! What stands behind the times of an expression, below a subquery that has some itself, and on both sides of an
//! operator.

use super::super::classes::RECORDS;
use super::super::Coverage;
use crate::page::record::Record;
use crate::times::{self, Times};

/// The records that an accepted page can have behind times.
const BEHIND: [u8; 9] = [0, 1, 2, 4, 7, 8, 9, 10, 11];

pub(super) fn classes() -> Vec<String> {
    let mut classes = Vec::new();
    for times in Times::ALL {
        let records = BEHIND.map(|kind| RECORDS[usize::from(kind)]);
        let ends = records.into_iter().chain(["the end"]);
        classes.extend(ends.map(|record| behind(times, record)));
        classes.extend(Times::ALL.map(|on| nested(times, on)));
        classes.extend(Times::ALL.map(|right| beside(times, right)));
    }
    classes
}

fn behind(times: Times, record: &str) -> String {
    format!("times: {}, then {record}", times.words())
}

fn nested(below: Times, on: Times) -> String {
    let [below, on] = [below.words(), on.words()];
    format!("times: {below} below a subquery, {on} on it")
}

fn beside(left: Times, right: Times) -> String {
    let [left, right] = [left.words(), right.words()];
    format!("times: {left} on the left, {right} on the right")
}

/// How many records set this.
fn length(times: Times) -> usize {
    match times {
        Times::Offset | Times::At => 1,
        Times::AtOffset | Times::OffsetAt => 2,
    }
}

impl Coverage {
    pub(super) fn behind_times(&mut self, records: &[Record], start: usize, times: Times) {
        let rest = &records[start + length(times)..];
        let next = rest.first().map(Record::kind_number);
        let next = next.map_or("the end", |kind| RECORDS[usize::from(kind)]);
        self.hit(behind(times, next));
        if let [Record::Subquery { .. }, above @ ..] = rest {
            if let Some((0, on)) = times::found(above).first() {
                self.hit(nested(times, *on));
            }
        }
    }

    /// Goes over the records as the stack does, which holds the times of bare expressions.
    pub(super) fn beside_times(&mut self, records: &[Record]) {
        let found = times::found(records);
        let mut stack: Vec<Option<Times>> = Vec::new();
        for (index, record) in records.iter().enumerate() {
            let operands = stack.split_off(stack.len() - record.operands());
            if let (Record::Binary { .. }, [Some(left), Some(right)]) = (record, &operands[..]) {
                self.hit(beside(*left, *right));
            }
            let ends = |(start, times): &&(usize, Times)| start + length(*times) == index + 1;
            let times = found.iter().find(ends);
            stack.push(times.map(|(_, times)| *times));
        }
    }
}
