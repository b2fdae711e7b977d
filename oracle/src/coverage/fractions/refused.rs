//! What is no fraction and so 1: which number is wrong and how, in every holder; other forms; forms 5 and 6 of other
//! fields.

use super::super::Coverage;
use super::sign;
use crate::answer::{Outcome, Worked};
use crate::bad_fraction::BadFraction;
use crate::page::read::{NumberField, Reader};
use crate::page::record::*;
use crate::page::write;

#[rustfmt::skip]
const NAMED: &[&str] = &[
    "fractions: 1 before 2, left fill", "fractions: 1 before 2, right fill", "fractions: both numbers wrong",
    "fractions: a good left fill, a wrong right one", "fractions: form 5 of @", "fractions: form 6 of @",
    "fractions: 5 for a sign of offset", "fractions: 6 for a sign of offset", "fractions: 5 for the mark of a step",
    "fractions: 6 for the mark of a step",
];

pub(super) fn classes() -> Vec<String> {
    let mut classes: Vec<String> = NAMED.iter().map(ToString::to_string).collect();
    for holder in Holder::ALL {
        classes.push(form_7(holder));
        for is_minus in [false, true] {
            classes.extend(BadFraction::all().map(|bad| wrong(holder, is_minus, bad)));
        }
    }
    classes
}

fn form_7(holder: Holder) -> String {
    format!("fractions: {}, form 7", holder.words())
}

fn wrong(holder: Holder, is_minus: bool, bad: BadFraction) -> String {
    format!(
        "fractions: {}, {}, {}",
        holder.words(),
        sign(is_minus),
        bad.words()
    )
}

impl Coverage {
    /// Of a page that is 1: the number, or the field with a form of a number, at which reading stopped.
    pub(super) fn no_fraction(&mut self, worked: &Worked) {
        if !matches!(worked.outcome, Outcome::Refused { number: 1, .. }) {
            return;
        }
        if let Some(field) = worked.literal {
            self.wrong_number(worked, field);
        }
        let start = write::page(&worked.records).len();
        self.other_field(&worked.page[start..]);
    }

    fn wrong_number(&mut self, worked: &Worked, field: NumberField) {
        let NumberField { holder, start } = field;
        let (form, numbers) = match &worked.page[start..] {
            [7, ..] => return self.hit(form_7(holder)),
            [form @ (5 | 6), numbers @ ..] => (form, numbers),
            _ => return,
        };
        let Some(bad) = BadFraction::find(numbers) else {
            return;
        };
        self.hit(wrong(holder, *form == 6, bad));
        self.hit_if(are_both_wrong(numbers), "fractions: both numbers wrong");
        let taken: usize = worked.records.iter().map(Record::operands).sum();
        let has_operands = worked.records.len() - taken >= 2;
        match holder {
            Holder::Record => {}
            Holder::LeftFill => self.hit_if(!has_operands, "fractions: 1 before 2, left fill"),
            Holder::RightFill => {
                self.hit_if(!has_operands, "fractions: 1 before 2, right fill");
                let record = write::page(&worked.records).len();
                let has_left = has_left_fraction(&worked.page[record..start - 1]);
                self.hit_if(has_left, "fractions: a good left fill, a wrong right one");
            }
        }
    }

    /// Of the record at which reading stopped.
    fn other_field(&mut self, record: &[u8]) {
        match record {
            [5, 5, ..] => self.hit("fractions: form 5 of @"),
            [5, 6, ..] => self.hit("fractions: form 6 of @"),
            [6, 5, ..] => self.hit("fractions: 5 for a sign of offset"),
            [6, 6, ..] => self.hit("fractions: 6 for a sign of offset"),
            [4, fields @ ..] => self.step(fields),
            _ => {}
        }
    }

    fn step(&mut self, fields: &[u8]) {
        let mut reader = Reader::new(fields);
        let mark = reader.number().and_then(|_| reader.number());
        self.hit_if(mark == Ok(5), "fractions: 5 for the mark of a step");
        self.hit_if(mark == Ok(6), "fractions: 6 for the mark of a step");
    }
}

/// Whether both numbers can be read and neither is within its range.
fn are_both_wrong(numbers: &[u8]) -> bool {
    let mut reader = Reader::new(numbers);
    let (Ok(digits), Ok(places)) = (reader.number(), reader.number()) else {
        return false;
    };
    Fraction::new(digits, 1).is_none() && Fraction::new(1, places).is_none()
}

/// Whether a record has a fraction as its left fill: these are its bytes up to the mark of the right one.
fn has_left_fraction(bytes: &[u8]) -> bool {
    let without_right = [bytes, &[0]].concat();
    let record = Reader::new(&without_right).record();
    let Ok(Record::Binary { modifier, .. }) = record else {
        return false;
    };
    let left = modifier.and_then(|modifier| modifier.left_fill);
    left.and_then(Number::fraction).is_some()
}
