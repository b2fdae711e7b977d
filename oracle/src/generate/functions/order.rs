//! What comes before 37 and 38: all fields of the call, refused records before it, the 257th record. What comes after
//! them: operands that are missing, the call's arguments, records behind it.

use super::call;
use crate::functions::signatures;
use crate::generate::around::{length, refused, surrounded, Around};
use crate::generate::{Generator, Made};
use crate::hex;
use crate::page::write;
use crate::refusal::{UNKNOWN_FUNCTION, UNLIKE_SIGNATURE};

/// A name with its number where the signature is none of the table's: `abz` is unknown, `abs` has another one.
const NAMES: [(&str, u8); 2] = [
    ("0b0361627a", UNKNOWN_FUNCTION),
    ("0b03616273", UNLIKE_SIGNATURE),
];

const UP: &str = "0202757000";
const ABS: &str = "0b036162730100000001";

/// Signatures that `abs` does not have with a count: operands before, and what document 01 says of the call: nothing,
/// 2, 26 to 30.
#[rustfmt::skip]
const SIGNATURES: &[(&str, &str)] = &[
    (UP, "0100 00 01 01"), ("", "0100 00 01 01"), ("(0202757000)*2;", "0100 00 01 02"), ("", "020001 01 00 00"),
    ("(0202757000)*2;", "0100 0201 00 02"), (UP, "00 01 00 01"), ("000001", "0100 00 01 01"), ("", "00 00 00 00"),
    ("(0202757000)*2;", "020000 00 00 02"), (UP, "0100 01 00 01"), (UP, "0100 0201 00 01"), (UP, "0101 00 00 01"),
];

/// Fields behind a name that cannot be read, with their number; and calls whose name cannot be read.
#[rustfmt::skip]
const FIELDS: &[(&str, u8)] = &[
    ("", 1), ("01", 1), ("0100", 1), ("0100 00", 1), ("0100 00 01", 1), ("0100 02", 1), ("0104 00 01 01", 1),
    ("0100 03 01 01", 1), ("0100 0200 01 01", 1), ("0100 00 04 01", 1), ("0100 00 01 8100", 1), ("0100 00 01 11", 3),
    ("0100 0211 01 01", 3), ("11 00*17; 00 01 01", 3),
];

const UNREADABLE_NAMES: &[(&str, u8)] = &[
    ("0b00 0100 00 00 01", 4),
    ("0b023961 0100 00 00 01", 4),
    ("0b0361622d 0100 00 00 01", 4),
    ("0b02c3a9 0100 00 00 01", 4),
    ("0b #65; 61*65; 0100 00 00 01", 3),
    ("0b0461627a", 1),
];

/// What stands before and behind a call that is refused with 37 or 38.
#[rustfmt::skip]
const AROUND: &[Around] = &[
    ("", "", None), ("0202757000", "", None), ("0202757000", "08", None), ("0202757000", "63", None),
    ("0202757000", "0202396100", None), ("0202757000", "020011", None), ("0202757000", "090100", None),
    ("0202757000", "010161 090100", None), ("0202757000", "0a1b0001 010161 090100", None),
    ("0202757000", "020000", None), ("0202757000", "0202757001 0201610178 01", None),
    ("0202757000", "0b036162730100000001", None), ("0202757000 0b036162730100000001", "", None),
    ("0202757000 0b036162730100000001", "0b036162730100000001", None), ("0202757000", "0b0361627a0100000001", None),
    ("0202757000", "0b036162730100000101", None), ("020000", "", Some((34, 0))), ("01016107", "", Some((6, 1))),
    ("07", "", Some((2, 0))), ("63", "", Some((1, 0))), ("0202396100", "", Some((4, 0))), ("020011", "", Some((3, 0))),
    ("000001 0b036162730100000001", "", Some((30, 1))), ("0b036162730100000001", "", Some((2, 0))),
    ("010161 000001 090100", "", Some((22, 2))), ("0202757001 0201610178 01", "", Some((41, 0))),
    ("0202757000 07*254;", "", None), ("0202757000 07*255;", "", Some((3, 256))),
    ("000001 010161 0202757000", "0501", None),
];

/// The table's own signature with other faults: the page, its number and its record.
#[rustfmt::skip]
const LIKE: &[(&str, u8, usize)] = &[
    ("0b036162730100000001", 2, 0), ("000001 0b036162730100000001", 30, 1),
    ("(0202757000)*2; 0b036162730100000002", 26, 2), ("0b036162730100000000", 26, 0),
    ("0b05726f756e64020001 02010000", 27, 0), ("0202757000 (000001)*2; 0b05726f756e64020001 02010003", 28, 3),
    ("000001 0b026c6e0100000001", 30, 1), ("0002 08 0b026c6e0100000001", 30, 2),
];

/// A call of the name with a signature that the table does not have, among other records.
fn called(around: Around, (name, number): (&str, u8)) -> Made {
    surrounded(around, (&format!("{name} 0100 00 01 01"), number))
}

/// The six functions without kinds, on an argument: 26, where an unlimited extra would give 29.
fn without_kinds() -> impl Iterator<Item = Made> {
    let known = signatures().filter(|each| each.kinds.is_empty());
    known.map(|signature| {
        let mut page = hex::bytes(UP);
        write::record(&mut page, &call(signature.clone(), 1));
        Made::refused(page, 26, 1)
    })
}

/// The functions of the literal exception, on an excused literal, with another signature than the table's.
fn excused_unlike() -> impl Iterator<Item = Made> {
    let functions = ["0b03657870", "0b026c6e", "0b056c6f673130", "0b046c6f6732"].into_iter();
    functions.flat_map(|name| {
        [
            "00 01 00 01",
            "0100 01 00 01",
            "0100 00 01 01",
            "0101 00 00 01",
        ]
        .map(|signature| refused(&format!("0002 {name} {signature}"), UNLIKE_SIGNATURE, 1))
    })
}

fn of_name((name, number): (&'static str, u8)) -> impl Iterator<Item = Made> {
    let signatures = SIGNATURES.iter().map(move |(before, signature)| {
        refused(
            &format!("{before} {name} {signature}"),
            number,
            length(before),
        )
    });
    let fields = FIELDS
        .iter()
        .map(move |(fields, number)| refused(&format!("{UP} {name} {fields}"), *number, 1));
    let around = AROUND
        .iter()
        .map(move |around| called(*around, (name, number)));
    signatures.chain(fields).chain(around)
}

pub(super) fn fixed() -> impl Iterator<Item = Made> {
    let unreadable = UNREADABLE_NAMES
        .iter()
        .map(|(call, number)| refused(&format!("{UP} {ABS} {call}"), *number, 2));
    let like = LIKE
        .iter()
        .map(|(page, number, record)| refused(page, *number, *record));
    let named = NAMES.into_iter().flat_map(of_name);
    named
        .chain(unreadable)
        .chain(like)
        .chain(without_kinds())
        .chain(excused_unlike())
}

impl Generator<'_> {
    /// A refused call and another fault: in its fields, in a record before it, in one behind it.
    pub(super) fn beside_fault(&mut self) -> Made {
        let (name, number) = *self.random.pick(&NAMES);
        let before = self.table_context();
        let record = before.len();
        let mut page = write::page(&before);
        let (rest, number, more) = match self.random.below(4) {
            0 => {
                let (fields, number) = *self.random.pick(FIELDS);
                (format!("{name} {fields}"), number, 0)
            }
            1 => {
                let (operands, signature) = *self.random.pick(SIGNATURES);
                let more = length(operands);
                (format!("{operands} {name} {signature}"), number, more)
            }
            _ => return called(*self.random.pick(AROUND), (name, number)),
        };
        page.extend(hex::bytes(&rest));
        Made::refused(page, number, record + more)
    }
}
