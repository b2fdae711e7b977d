//! What comes before 42: the fields of the record, its count of arguments, the kind of its operand, refused records
//! before it, the 257th record. What comes after it: records behind it, unreadable ones, and 2 at the end.

use super::{accepted, forms, CODES};
use crate::generate::around::{length, refused, surrounded, Around};
use crate::generate::{Generator, Made};
use crate::page::record::Kind;
use crate::refusal::LIMIT_PARAMETER;

/// limitk or limit_ratio on parameters that are no scalars; all are refused with 42 at their last record.
const FAULTY: [&str; 6] = [
    "010161 0202757000 0a1d0002",
    "010161 0202757000 0a1e0002",
    "0202757000 0202757000 0a1d01010178 02",
    "0202757000 0301 0202757000 0a1e0002",
    "000000 0b026c6e0100000001 0202757000 0a1d0002",
    "010161 000000 0b026c6e0100000001 0a1e0002",
];

/// What stands before and behind them.
#[rustfmt::skip]
const AROUND: &[Around] = &[
    ("", "", None), ("", "08", None), ("", "07", None), ("", "63", None), ("", "0202396100", None), ("", "020011", None),
    ("", "0202757000", None), ("", "010162 090100", None), ("", "000001 090100", None), ("", "0301", None),
    ("", "090100", None), ("", "020000", None), ("", "0202757001 0201610178 01", None), ("", "0a1b0001", None),
    ("", "0a1b0002", None), ("", "0a1d0000", None), ("", "0a1d0001", None), ("", "000001 0a1d0002", None),
    ("", "0a1d00", None), ("", "000001 0b026c6e0100000001", None), ("", "0b0361627a0100000001", None),
    ("", "08*256;", None), ("", "0202757000 0a1d0002", None), ("", "0202757000 0a1e0002", None), ("000001", "0a1d0002", None), ("000001", "0a1e0002", None),
    ("010162", "0a1d0002", None), ("010162", "0a1e0002", None), ("010162", "0a1c0002", None),
    ("0202757000", "090100", None), ("000001 0202757000 0a1d0002", "090100", None),
    ("", "010161 0202757000 0a1d0002 090100", None), ("", "010161 0202757000 0a1e0002", None),
    ("010162 000001 090100", "", Some((22, 2))), ("63", "", Some((1, 0))), ("0202396100", "", Some((4, 0))),
    ("020011", "", Some((3, 0))), ("020000", "", Some((34, 0))), ("01016107", "", Some((6, 1))),
    ("07", "", Some((2, 0))),
    ("0202757001 0201610178 01", "", Some((41, 0))), ("000001 0b026c6e0100000001", "", Some((30, 1))),
    ("000001 0a1b0001", "", Some((25, 1))), ("010161 0202757000 0a1c0002", "", Some((25, 2))),
    ("010161 000001 0a1d0002", "", Some((25, 2))), ("0a1d0000", "", Some((14, 0))),
    ("010161 0a1d0001", "", Some((15, 1))),
    ("0202757000 0202757000 091d00", "", Some((16, 2))), ("0202757000 0a010001", "", Some((24, 1))),
    ("010161 08 07", "", Some((31, 2))), ("000001 040100", "", Some((32, 1))),
];

/// Pages at the limit of 256 records: 42 at the last one, whether check accepts the page or not, and one record more.
#[rustfmt::skip]
const AT_LIMIT: &[(&str, u8, usize)] = &[
    ("010161 0202757000 07*253; 0a1d0002", LIMIT_PARAMETER, 255),
    ("0202757000 0301 0202757000 07*252; 0a1e0002", LIMIT_PARAMETER, 255),
    ("0202757000 07*252; 010161 0202757000 0a1d0002", LIMIT_PARAMETER, 255),
    ("010161 0202757000 07*254; 0a1d0002", 3, 256), ("010161 0202757000 07*254; 0a1e0002", 3, 256),
    ("0202757000 07*253; 010161 0202757000 0a1d0002", 3, 256),
    ("010161 0202757000 0a1d0002 07*253;", LIMIT_PARAMETER, 2),
    ("010161 0202757000 0a1d0002 07*254;", LIMIT_PARAMETER, 2),
];

/// As many limits as a page holds: the innermost parameter is no scalar, the outermost, the one in between.
#[rustfmt::skip]
const MOST: &[(&str, u8, usize)] = &[
    ("(000001)*126; 010161 0202757000 (0a1d0002)*127;", LIMIT_PARAMETER, 128),
    ("010161 (000001)*126; 0202757000 (0a1d0002)*127;", LIMIT_PARAMETER, 254),
    ("(000001)*63; 010161 (000001)*63; 0202757000 (0a1e0002)*127;", LIMIT_PARAMETER, 191),
];

/// Behind a parameter that is no scalar and `up`: fields that cannot be read, and counts other than two.
#[rustfmt::skip]
const FIELDS: &[(&str, u8)] = &[
    ("", 1), ("00", 1), ("03 02", 1), ("01 02", 1), ("01 01 0178", 1), ("00 11", 3), ("01 11", 3), ("01 01 01ff 02", 4),
    ("00 8200", 1), ("00 00", 14), ("00 01", 15),
];

/// Counts other than two on so many `"a"`: 2 before 14 and 15.
#[rustfmt::skip]
const COUNTS: &[(usize, usize, u8)] = &[
    (0, 0, 14), (1, 0, 14), (1, 1, 15), (2, 1, 15), (3, 3, 15), (4, 3, 15), (16, 16, 15), (0, 1, 2), (0, 2, 2),
    (1, 2, 2), (2, 3, 2), (15, 16, 2),
];

/// Aggregators with a parameter that is tested by document 01, and the kind that it must have.
const TESTED: [(u8, Kind); 4] = [
    (18, Kind::Scalar),
    (20, Kind::String),
    (24, Kind::Scalar),
    (28, Kind::Scalar),
];

fn of_code(code: u8) -> impl Iterator<Item = Made> {
    let fields = FIELDS.iter().map(move |(fields, number)| {
        refused(
            &format!("010161 0202757000 0a{code:02x} {fields}"),
            *number,
            2,
        )
    });
    let counts = COUNTS.iter().map(move |(given, count, number)| {
        let notation = format!("(010161)*{given}; 0a{code:02x}00 #{count};");
        refused(&notation, *number, *given)
    });
    let sides =
        forms::shortest().flat_map(|left| forms::shortest().map(move |right| (left, right)));
    let binaries = sides.map(move |((_, left), (_, right))| {
        let operands = format!("{left} {right}");
        let record = length(&operands);
        refused(&format!("{operands} 09{code:02x}00"), 16, record)
    });
    fields.chain(counts).chain(binaries)
}

/// Other aggregators with a parameter: 25 where it has another kind, and never 42.
fn tested() -> impl Iterator<Item = Made> {
    TESTED.into_iter().flat_map(|(code, wanted)| {
        forms::all().map(move |(kind, parameter)| {
            let operands = format!("{parameter} 0202757000");
            let notation = format!("{operands} 0a{code:02x}0002");
            match *kind == wanted {
                true => accepted(&notation),
                false => refused(&notation, 25, length(&operands)),
            }
        })
    })
}

pub(super) fn fixed() -> impl Iterator<Item = Made> {
    let around = FAULTY.into_iter().flat_map(|faulty| {
        AROUND
            .iter()
            .map(move |around| surrounded(*around, (faulty, LIMIT_PARAMETER)))
    });
    let at_limit = AT_LIMIT.iter().chain(MOST);
    let at_limit = at_limit.map(|(page, number, record)| refused(page, *number, *record));
    around
        .chain(at_limit)
        .chain(CODES.into_iter().flat_map(of_code))
        .chain(tested())
}

impl Generator<'_> {
    /// A refused limitk or limit_ratio among other records, one of which may be refused too.
    pub(super) fn beside_limit(&mut self) -> Made {
        let faulty = *self.random.pick(&FAULTY);
        surrounded(*self.random.pick(AROUND), (faulty, LIMIT_PARAMETER))
    }
}
