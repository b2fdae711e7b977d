//! One planted fault: good expressions on the stack, the operands of the faulty record, that record, and what follows
//! unread.

mod aggregate;
mod binary;
mod call;
mod checks;
mod fields;

use super::{Generator, Made, Records, Scope};
use crate::answer::Outcome;
use crate::page::record::Kind;
use crate::page::write;
use crate::random::Random;
use crate::refusal::{self, WRONG_FLAG};

/// The numbers that a page of this scope can be refused with: 5 depends on the buffer.
pub fn numbers(scope: Scope) -> impl Iterator<Item = u8> {
    let has_flags = scope >= Scope::Patterns;
    refusal::of_calls().filter(move |number| match *number {
        5 => false,
        WRONG_FLAG => has_flags,
        _ => true,
    })
}

/// A faulty record on the stack that `before` leaves.
struct Fault {
    before: Records,
    record: Vec<u8>,
    /// Nothing may follow, since the fault is that the page ends.
    is_last: bool,
}

/// A page that is refused with this number, at an index that varies.
pub fn planted(random: &mut Random, scope: Scope, number: u8) -> Made {
    let mut generator = Generator::new(random, 8, scope);
    if number == 2 {
        return operands_missing(&mut generator);
    }
    let fault = match number {
        1 | 3 | 4 => fields::fault(&mut generator, number),
        _ => checks::fault(&mut generator, number),
    };
    let mut records = context(&mut generator, 2);
    records.extend(fault.before);
    let mut page = write::page(&records);
    page.extend(fault.record);
    if !fault.is_last {
        page.extend(unread(generator.random));
    }
    let record = records.len();
    Made::new(page, Outcome::Refused { number, record })
}

/// Up to `most` good expressions, sometimes of many records.
pub(super) fn context(generator: &mut Generator, most: usize) -> Records {
    let mut records = Vec::new();
    for _ in 0..generator.random.between(0, most) {
        let size = match generator.random.below(10) {
            0 => generator.random.between(10, 60),
            _ => generator.random.between(1, 4),
        };
        let kind = *generator.random.pick(&Kind::ALL);
        records.extend(generator.expression(kind, size));
    }
    records
}

/// Bytes that no reader gets to.
pub(super) fn unread(random: &mut Random) -> Vec<u8> {
    let count = random.below(6);
    (0..count).map(|_| random.byte()).collect()
}

/// 2: fewer values than operands; or not one value at the end, which has the number of records as index.
fn operands_missing(generator: &mut Generator) -> Made {
    let is_at_end = generator.random.chance(30);
    let values = if is_at_end {
        *generator.random.pick(&[0, 2, 2, 3])
    } else {
        generator.random.below(4)
    };
    let mut records = Vec::new();
    for _ in 0..values {
        let size = generator.random.between(1, 5);
        let kind = *generator.random.pick(&Kind::ALL);
        records.extend(generator.expression(kind, size));
    }
    let mut page = write::page(&records);
    if !is_at_end {
        write::record(&mut page, &checks::wanting(generator, values));
        page.extend(unread(generator.random));
    }
    let refused = Outcome::Refused {
        number: 2,
        record: records.len(),
    };
    Made::new(page, refused)
}
