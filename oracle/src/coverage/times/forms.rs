//! The forms of @ and offset, in either order and alone, on each expression that can have them; of offset and then @
//! the lengths of both.

use super::super::Coverage;
use crate::page::record::Record;
use crate::page::write;
use crate::times::{AtForm, OffsetForm, Timed, Times};
use std::ops::RangeInclusive;

/// The bytes of an offset, and of an @.
const OFFSET_BYTES: RangeInclusive<usize> = 3..=10;
const AT_BYTES: RangeInclusive<usize> = 2..=10;

pub(super) fn classes() -> Vec<String> {
    let mut classes = Vec::new();
    for timed in Timed::ALL {
        for at in AtForm::ALL {
            classes.push(alone(timed, at.words()));
            for times in Times::BOTH {
                classes.extend(OffsetForm::all().map(|offset| both(timed, times, at, offset)));
            }
        }
        classes.extend(OffsetForm::all().map(|offset| alone(timed, offset.words())));
    }
    classes.extend(OFFSET_BYTES.map(|bytes| long("offset", bytes)));
    classes.extend(AT_BYTES.map(|bytes| long("@", bytes)));
    classes
}

fn alone(timed: Timed, form: &str) -> String {
    format!("times: {}, {form} alone", timed.words())
}

fn both(timed: Timed, times: Times, at: AtForm, offset: OffsetForm) -> String {
    let [timed, times] = [timed.words(), times.words()];
    let [at, offset] = [at.words(), offset.words()];
    format!("times: {timed}, {times}, {at}, {offset}")
}

fn long(words: &str, bytes: usize) -> String {
    format!("times: offset then @, {words} of {bytes} bytes")
}

fn offset_form(record: &Record) -> Option<OffsetForm> {
    match record {
        Record::Offset {
            is_minus,
            milliseconds,
        } => Some(OffsetForm::of(*is_minus, *milliseconds)),
        _ => None,
    }
}

fn at_form(record: &Record) -> Option<AtForm> {
    match record {
        Record::At(at) => Some(AtForm::of(*at)),
        _ => None,
    }
}

impl Coverage {
    pub(super) fn time_forms(&mut self, records: &[Record], start: usize, times: Times) {
        let timed = Timed::of(&records[start - 1]).expect("an expression that can have times");
        let set = &records[start..records.len().min(start + 2)];
        let at = set.iter().find_map(at_form);
        let offset = set.iter().find_map(offset_form);
        match (times, at, offset) {
            (Times::At, Some(at), _) => self.hit(alone(timed, at.words())),
            (Times::Offset, _, Some(offset)) => self.hit(alone(timed, offset.words())),
            (_, Some(at), Some(offset)) => self.hit(both(timed, times, at, offset)),
            _ => unreachable!("times that were found"),
        }
        if times == Times::OffsetAt {
            let bytes = |place: usize| write::page(&set[place..=place]).len();
            self.hit(long("offset", bytes(0)));
            self.hit(long("@", bytes(1)));
        }
    }
}
