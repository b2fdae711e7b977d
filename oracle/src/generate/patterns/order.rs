//! What comes before 41: all fields of its record, 1, 3 and 4 of later matchers too, and refused records before it.
//! What comes after it: 33 and 34, records behind it, and 2 at the end.

use super::super::fault::{context, unread};
use super::super::{Generator, Made};
use crate::answer::Outcome;
use crate::hex;
use crate::page::write;
use crate::refusal::WRONG_FLAG;

/// A matcher that is refused by its fields, with the number.
#[rustfmt::skip]
const FAULTY: &[(&str, u8)] = &[
    ("04 0161 0162", 1), ("8200 0161 0162", 1), ("02 0161 0162 02", 1), ("03 0161 0162 8100", 1), ("00 810061 0162", 1),
    ("00 0161 8000", 1), ("00 #256; 61*256; 0162", 3), ("00 0161 #256; 61*256;", 3), ("02 0161 #256; 61*256; 00", 3),
    ("03 0161 #300; ff*300; 00", 3), ("00 01ff 0162", 4), ("01 0161 01ff", 4), ("02 0161 01c3 00", 4),
    ("03 0161 02c080 01", 4), ("02 03eda080 0162 01", 4),
];

/// The end of a page inside a matcher.
const CUT: [&str; 5] = ["", "00", "00 0161", "00 0161 0262", "02 0161 0162"];

/// A matcher with a wrong flag.
const WRONG: [&str; 4] = [
    "02 0162 0178 01",
    "02 0162 02782a 00",
    "03 0162 0178 01",
    "03 0162 00 00",
];

const SELECTOR: &str = "0202757001 0201610178 01";

fn refused(page: Vec<u8>, number: u8, record: usize) -> Made {
    Made::new(page, Outcome::Refused { number, record })
}

/// A wrong flag, then a matcher that cannot be read.
fn before_faults() -> impl Iterator<Item = Made> {
    let cut = CUT.map(|matcher| (matcher, 1));
    let faults = FAULTY.iter().copied().chain(cut);
    faults.enumerate().map(|(index, (matcher, number))| {
        let wrong = WRONG[index % WRONG.len()];
        let page = hex::bytes(&format!("0202757002 {wrong} {matcher}"));
        refused(page, number, 0)
    })
}

/// Records before and after a selector with a wrong flag; the number and the record of the outcome.
type Around = (&'static str, &'static str, u8, usize);

#[rustfmt::skip]
const AROUND: &[Around] = &[
    ("020000", "", 34, 0), ("02027570010008 5f5f6e616d655f5f0161", "", 33, 0), ("01016107", "", 6, 1),
    ("07", "", 2, 0), ("090100", "", 2, 0), ("0202757000 090100", "", 2, 1), ("63", "", 1, 0), ("0202396100", "", 4, 0),
    ("020011", "", 3, 0), ("0202757001 020161017900", "", WRONG_FLAG, 1), ("0202757000", "", WRONG_FLAG, 1),
    ("0202757000", "090100", WRONG_FLAG, 1), ("", "63", WRONG_FLAG, 0), ("", "090100", WRONG_FLAG, 0),
    ("", "020000", WRONG_FLAG, 0), ("", "0202396100", WRONG_FLAG, 0), ("", "08", WRONG_FLAG, 0),
    ("", "0202757001 0201610178 01", WRONG_FLAG, 0), ("0202757000 08*254;", "", WRONG_FLAG, 255),
    ("0202757000 08*255;", "", 3, 256), ("000001 010161 0202757000", "0501", WRONG_FLAG, 3),
];

fn surrounded((before, after, number, record): &Around) -> Made {
    let page = hex::bytes(&format!("{before} {SELECTOR} {after}"));
    refused(page, *number, *record)
}

/// Selectors that 33 or 34 would refuse too; the name is `up` or none, the matchers stand in either order.
fn before_other_rows() -> impl Iterator<Item = Made> {
    let metric = "00 085f5f6e616d655f5f 0161";
    let empty = "00 0161 00";
    let named = WRONG.map(|wrong| ("027570", metric, wrong));
    let unnamed = WRONG.map(|wrong| ("00", empty, wrong));
    let pairs = named.into_iter().chain(unnamed);
    pairs.flat_map(|(name, other, wrong)| {
        [[other, wrong], [wrong, other]].map(|[first, second]| {
            let page = hex::bytes(&format!("02 {name} 02 {first} {second}"));
            refused(page, WRONG_FLAG, 0)
        })
    })
}

/// The name's own matcher is the wrong one.
fn on_name() -> impl Iterator<Item = Made> {
    ["027570", "00"].into_iter().flat_map(|name| {
        ["02", "03"].map(|form| {
            let page = hex::bytes(&format!("02 {name} 01 {form} 085f5f6e616d655f5f 0178 01"));
            refused(page, WRONG_FLAG, 0)
        })
    })
}

pub(super) fn fixed() -> impl Iterator<Item = Made> {
    before_faults()
        .chain(AROUND.iter().map(surrounded))
        .chain(before_other_rows())
        .chain(on_name())
}

impl Generator<'_> {
    /// A wrong flag and another fault: in a later matcher, in a record before, in one behind it.
    pub(super) fn flag_beside_fault(&mut self) -> Made {
        if self.random.chance(10) {
            return surrounded(self.random.pick(AROUND));
        }
        let records = context(self, 2);
        let mut page = write::page(&records);
        let record = records.len();
        match self.random.below(4) {
            0 | 1 => {
                let number = self.faulty_after_wrong(&mut page);
                return refused(page, number, record);
            }
            2 => {
                page.extend(hex::bytes("020000"));
                page.extend(self.wrongly_flagged_bytes());
                return refused(page, 34, record);
            }
            _ => page.extend(self.wrongly_flagged_bytes()),
        }
        page.extend(unread(self.random));
        refused(page, WRONG_FLAG, record)
    }

    /// A selector with up to three wrong flags, then a faulty matcher or the end of the page; the refusal.
    fn faulty_after_wrong(&mut self, page: &mut Vec<u8>) -> u8 {
        let wrong = self.random.between(1, 3);
        page.extend([2, 1, b'm', wrong as u8 + 1]);
        for _ in 0..wrong {
            let matcher = self.random.pick::<&str>(&WRONG);
            page.extend(hex::bytes(matcher));
        }
        if self.random.chance(30) {
            page.extend(hex::bytes(self.random.pick::<&str>(&CUT)));
            return 1;
        }
        let (matcher, number) = *self.random.pick(FAULTY);
        page.extend(hex::bytes(matcher));
        page.extend(unread(self.random));
        number
    }
}
