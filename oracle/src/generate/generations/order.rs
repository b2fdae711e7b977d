//! A generation's own call among other records: what comes before it, with both tables, and what comes behind it, which
//! the other generation does not get to; and at the limit of records.

use super::{named, own_faults, Judged};
use crate::answer::Outcome;
use crate::generate::around::length;
use crate::generate::Generator;
use crate::generations::Generation;
use crate::hex;
use crate::page::record::Kind::{self, Matrix, Scalar, Vector};
use crate::refusal::UNLIKE_SIGNATURE;

/// What the generation's own table says of a page: its kind, a refusal of a record before the call, or of the one so
/// far behind it.
#[derive(Clone, Copy)]
enum Own {
    Is(Kind),
    Before(u8, usize),
    Behind(u8, usize),
}

use Own::{Before, Behind, Is};

/// Records before and behind the call.
#[rustfmt::skip]
const AROUND: &[(&str, &str, Own)] = &[
    ("", "", Is(Vector)), ("", "08", Is(Vector)), ("", "07", Is(Vector)), ("", "0a1b0001", Is(Vector)),
    ("", "0b067363616c61720100000101", Is(Scalar)), ("", "0b067363616c61720100000101 08", Is(Scalar)),
    ("", "040100", Is(Matrix)), ("", "040100 0501", Is(Matrix)), ("", "0b036162730100000001", Is(Vector)),
    ("", "000001 090100", Is(Vector)), ("", "0202757000 090600", Is(Vector)), ("0202757000", "090100", Is(Vector)),
    ("000001", "090100", Is(Vector)), ("010161", "0a1d0002", Is(Vector)), ("0202757000", "0a1e0002", Is(Vector)),
    ("000000 0b026c6e0100000001", "090100", Is(Vector)), ("010161 0202757000 0a1d0002", "090100", Is(Vector)),
    ("0202757000 0301 0b0d6d61645f6f7665725f74696d650102000001", "090100", Is(Vector)), ("", "63", Behind(1, 1)),
    ("", "0202396100", Behind(4, 1)), ("", "020011", Behind(3, 1)), ("", "090100", Behind(2, 1)),
    ("", "0202757000", Behind(2, 2)), ("010161", "", Behind(2, 1)), ("", "010161 090100", Behind(22, 2)),
    ("", "0301", Behind(9, 1)), ("", "020000", Behind(34, 1)), ("", "0202757001 0201610178 01", Behind(41, 1)),
    ("", "0202757001 00085f5f6e616d655f5f0161", Behind(33, 1)), ("", "0501", Behind(11, 1)),
    ("", "060001", Behind(13, 1)), ("", "0a1b0000", Behind(14, 1)), ("", "0a1c0001", Behind(15, 1)),
    ("", "0202757000 091b00", Behind(16, 2)), ("", "0a010001", Behind(24, 1)), ("", "000001 0a1b0001", Behind(25, 2)),
    ("", "0b026c6e0100000000", Behind(26, 1)), ("", "000001 0b026c6e0100000001", Behind(30, 2)),
    ("", "010161 07", Behind(6, 2)), ("", "010161 08 07", Behind(31, 3)), ("", "000001 040100", Behind(32, 2)),
    ("", "08*252;", Behind(3, 252)), ("", "0b036162730100010001", Behind(38, 1)),
    ("", "0b0361627a0100000001", Behind(37, 1)), ("", "0b03656e6400000100", Behind(37, 1)),
    ("", "040100 0b0f66697273745f6f7665725f74696d650102000001", Behind(37, 2)), ("63", "", Before(1, 0)),
    ("0202396100", "", Before(4, 0)), ("020011", "", Before(3, 0)), ("07", "", Before(2, 0)),
    ("020000", "", Before(34, 0)), ("0202757001 0201610178 01", "", Before(41, 0)), ("010161 07", "", Before(6, 1)),
    ("0a1b0000", "", Before(14, 0)), ("0202757000 0a1c0001", "", Before(15, 1)), ("010161 08 07", "", Before(31, 2)),
    ("0202757000 0202757000 091b00", "", Before(16, 2)), ("010161 000001 090100", "", Before(22, 2)),
    ("000001 0a1b0001", "", Before(25, 1)), ("0b026c6e0100000000", "", Before(26, 0)),
    ("000001 0b026c6e0100000001", "", Before(30, 1)), ("000001 040100", "", Before(32, 1)),
    ("0202757000 0b036162730100010001", "", Before(38, 1)), ("0202757000 0b0361627a0100000001", "", Before(37, 1)),
    ("0b03656e6400000100", "", Before(37, 0)),
];

/// `up[1ms], 5, 5` and the call.
fn with_arguments(generation: Generation) -> String {
    let name = named(generation);
    format!("0202757000 0301 (000005)*2; {name} 03020101 00 00 03")
}

fn surrounded((before, behind, own): (&str, &str, Own), generation: Generation) -> Judged {
    let call = with_arguments(generation);
    let page = hex::bytes(&format!("{before} {call} {behind}"));
    let refused = |number, record| Outcome::Refused { number, record };
    // What stands before the call may not be readable; then nothing behind it matters.
    let place = |before| length(before) + 4;
    match own {
        Before(number, record) => Judged::same(page, refused(number, record)),
        Is(kind) => {
            let faults = own_faults(generation, None, place(before));
            Judged::new(page, Outcome::Accepted(kind), faults)
        }
        Behind(number, more) => {
            let record = place(before);
            let faults = own_faults(generation, None, record);
            Judged::new(page, refused(number, record + more), faults)
        }
    }
}

/// The call as the record at this place, at the limit of 256 records or behind it; with its signature, or unlimited.
pub(super) fn at_limit(generation: Generation, place: usize, is_like: bool) -> Judged {
    let (name, marks, extra) = (named(generation), place - 4, u8::from(!is_like));
    let page = format!("0202757000 0301 (000005)*2; 07*{marks}; {name} 03020101 {extra:02x} 00 03");
    let page = hex::bytes(&page);
    let unread = Outcome::Refused {
        number: 3,
        record: 256,
    };
    let number = (!is_like).then_some(UNLIKE_SIGNATURE);
    match place {
        256 => Judged::same(page, unread),
        _ => {
            let faults = own_faults(generation, number, place);
            Judged::new(page, Outcome::Accepted(Vector), faults)
        }
    }
}

pub(super) fn fixed() -> impl Iterator<Item = Judged> {
    Generation::ALL.into_iter().flat_map(|generation| {
        let around = AROUND
            .iter()
            .map(move |around| surrounded(*around, generation));
        let at_limit = [254, 255, 256].into_iter().flat_map(move |place| {
            [true, false].map(|is_like| at_limit(generation, place, is_like))
        });
        around.chain(at_limit)
    })
}

impl Generator<'_> {
    /// A generation's own call among other records, one of which may be refused.
    pub(super) fn beside_own(&mut self) -> Judged {
        let generation = *self.random.pick(&Generation::ALL);
        surrounded(*self.random.pick(AROUND), generation)
    }
}
