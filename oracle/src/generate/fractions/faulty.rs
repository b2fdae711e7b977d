//! What is no fraction: digits and places outside their ranges, missing, cut short or not in their shortest form, in
//! number records and in both fills, with operands and without; other forms; the forms where a number is none.

use super::super::fault::{context, unread};
use super::super::{Generator, Made};
use super::values::fraction;
use crate::answer::Outcome;
use crate::bad_fraction::{BadFraction, Field, Wrong};
use crate::hex;
use crate::page::record::*;
use crate::page::write;

/// The forms of a fraction, plus and minus.
const FORMS: [u8; 2] = [5, 6];

/// Numbers that are wrong so, as digits or places.
#[rustfmt::skip]
fn examples(bad: BadFraction) -> &'static [&'static str] {
    match (bad.wrong, bad.field) {
        (Wrong::Missing, _) => &[""],
        (Wrong::CutShort, _) => &["80", "8f", "ff*7;"],
        (Wrong::NotShortest, _) => &["df00", "8000", "818000", "ff*7; 00"],
        (Wrong::AboveNumbers, _) => &["#9007199254740993;", "ff*7; 7f", "80*9; 01"],
        (Wrong::Zero, _) => &["00"],
        (Wrong::EndsInZero, _) => &["0a", "14", "#950;", "#1000;", "#100000000000000;", "#999999999999990;"],
        (Wrong::OneBeyond, Field::Digits) => &["#1000000000000000;"],
        (Wrong::TwoBeyond, Field::Digits) => &["#1000000000000001;"],
        (Wrong::FarBeyond, Field::Digits) => &["#1000000000000009;", "#9007199254740991;", "#9007199254740992;"],
        (Wrong::OneBeyond, Field::Places) => &["10"],
        (Wrong::TwoBeyond, Field::Places) => &["11"],
        (Wrong::FarBeyond, Field::Places) => &["12", "7f", "#128;", "#255;", "#256;", "#9007199254740992;"],
    }
}

fn number(value: u64) -> Vec<u8> {
    let mut bytes = Vec::new();
    write::number(&mut bytes, value);
    bytes
}

/// Both numbers, of which one is wrong so: this one. Nothing stands after what ends the page.
fn numbers(bad: BadFraction, wrong: &str, good: Fraction) -> Vec<u8> {
    let wrong = hex::bytes(wrong);
    match bad.field {
        Field::Digits if bad.is_last() => wrong,
        Field::Digits => [wrong, number(good.places())].concat(),
        Field::Places => [number(good.digits()), wrong].concat(),
    }
}

/// A record up to the form of its number: of kind 0, or a binary whose other fields are these.
fn record_before(holder: Holder, code: u8, mut modifier: Modifier<'static>) -> Vec<u8> {
    let missing = match holder {
        Holder::Record => return vec![0],
        Holder::LeftFill => {
            modifier.left_fill = None;
            2
        }
        Holder::RightFill => 1,
    };
    modifier.right_fill = None;
    let mut bytes = Vec::new();
    let modifier = Some(modifier);
    write::record(&mut bytes, &Record::Binary { code, modifier });
    bytes.truncate(bytes.len() - missing);
    bytes.push(1);
    bytes
}

fn refused(page: Vec<u8>, record: usize) -> Made {
    Made::new(page, Outcome::Refused { number: 1, record })
}

/// Every fault with both forms after these bytes.
fn following(before: Vec<u8>, record: usize) -> impl Iterator<Item = Made> {
    let good = fraction(95, 2);
    let forms = FORMS.into_iter();
    let faults = forms.flat_map(|form| BadFraction::all().map(move |bad| (form, bad)));
    faults.flat_map(move |(form, bad)| {
        let before = [before.as_slice(), &[form]].concat();
        let wrong = examples(bad).iter();
        wrong.map(move |wrong| {
            let page = [before.as_slice(), &numbers(bad, wrong, good)].concat();
            refused(page, record)
        })
    })
}

/// In every holder; in a fill on an empty stack and on its operands, in a right one also after a left fill.
fn faults() -> impl Iterator<Item = Made> {
    let left_fill = Some(Number::Fraction(fraction(95, 2)));
    let filled = Modifier {
        left_fill,
        ..Modifier::EMPTY
    };
    let holders = [
        (0, Holder::Record, Modifier::EMPTY),
        (0, Holder::LeftFill, Modifier::EMPTY),
        (2, Holder::LeftFill, Modifier::EMPTY),
        (0, Holder::RightFill, Modifier::EMPTY),
        (2, Holder::RightFill, filled),
    ];
    holders
        .into_iter()
        .flat_map(|(operands, holder, modifier)| {
            let mut before = hex::bytes("0202757000").repeat(operands);
            before.extend(record_before(holder, 1, modifier));
            following(before, operands)
        })
}

/// Other forms, both numbers wrong, and forms of a number where no number of kind 0 is.
#[rustfmt::skip]
const ROWS: &[(&str, usize)] = &[
    ("00075f02", 0), ("00085f02", 0), ("007f5f02", 0), ("0085005f02", 0), ("0005", 0), ("0006", 0),
    ("(0202757000)*2; 090101000000 01075f02 00", 2), ("(0202757000)*2; 090101000000 00 01075f02", 2),
    ("090101000000 01075f02 00", 0), ("090101000000 00 01075f02", 0),
    ("00050000", 0), ("00060000", 0), ("00050010", 0), ("00050a10", 0), ("00050a00", 0),
    ("0005 #1000000000000000; 10", 0), ("0006 #1000000000000001; 10", 0),
    ("(0202757000)*2; 090101000000 01050000 01060000", 2), ("(0202757000)*2; 090101000000 01055f02 01060000", 2),
    ("0202757000 05055f02", 1), ("0202757000 05065f02", 1), ("05055f02", 0), ("05065f02", 0),
    ("0202757000 06055f02", 1), ("0202757000 06065f02", 1), ("0202757000 0401 055f02", 1),
    ("0202757000 0401 065f02", 1), ("0202757000 04055f02", 1), ("0202757000 03055f02", 2),
];

fn others() -> impl Iterator<Item = Made> {
    ROWS.iter()
        .map(|(page, record)| refused(hex::bytes(page), *record))
}

pub(super) fn fixed() -> impl Iterator<Item = Made> {
    faults().chain(others())
}

impl Generator<'_> {
    /// A record whose number is no fraction, after good expressions, its operands or not; or one of the other pages.
    pub(super) fn bad_fraction(&mut self) -> Made {
        if self.random.chance(10) {
            let (page, record) = self.random.pick(ROWS);
            return refused(hex::bytes(page), *record);
        }
        let bads: Vec<_> = BadFraction::all().collect();
        let bad = *self.random.pick(&bads);
        let holder = *self.random.pick(&Holder::ALL);
        let records = context(self, 2);
        let mut page = write::page(&records);
        let code = self.random.between(1, 30) as u8;
        let modifier = self.modifier(code, Kind::Vector, Kind::Vector);
        page.extend(record_before(
            holder,
            code,
            modifier.unwrap_or(Modifier::EMPTY),
        ));
        page.push(*self.random.pick(&FORMS));
        let wrong = self.random.pick::<&str>(examples(bad));
        page.extend(numbers(bad, wrong, self.fraction()));
        if !bad.is_last() {
            page.extend(unread(self.random));
        }
        refused(page, records.len())
    }
}
