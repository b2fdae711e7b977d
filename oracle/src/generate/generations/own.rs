//! Each generation's own function with every near signature, under near names, with other counts and kinds of
//! arguments, and with fields that cannot be read.

use super::{named, own_faults, Judged};
use crate::answer::Outcome;
use crate::functions::near::{self, Unlike};
use crate::functions::spelling::near_unknown;
use crate::generate::around::length;
use crate::generate::functions::{arguments, call, declared, shortest};
use crate::generate::{Generator, Records};
use crate::generations::Generation;
use crate::hex;
use crate::page::record::{Kind, Number, Record, Signature, Text};
use crate::page::write;
use crate::refusal::{UNKNOWN_FUNCTION, UNLIKE_SIGNATURE};

/// A call that its own table refuses so, whatever document 01 says of it; `form` says what stands below it: its
/// arguments, nothing, one more than its arguments.
fn refused(
    generation: Generation,
    carried: &Signature<'static>,
    number: u8,
    form: usize,
) -> Judged {
    let fitting = carried.kinds.len();
    let mut records = arguments(carried, fitting);
    let mut count = fitting;
    match form % 3 {
        0 => {}
        1 => records = Records::new(),
        _ => {
            records.push(Record::Number(Number::NaN));
            count += 1;
        }
    }
    let record = records.len();
    records.push(call(carried.clone(), count));
    let faults = own_faults(generation, Some(number), record);
    Judged::new(
        write::page(&records),
        Outcome::Accepted(Kind::Vector),
        faults,
    )
}

/// Every signature that is unlike its own in one way.
fn unlike(generation: Generation) -> impl Iterator<Item = Judged> {
    let own = generation.own();
    let near = Unlike::ALL
        .into_iter()
        .flat_map(move |way| near::signatures(own, way));
    let numbered = near.enumerate();
    numbered.map(move |(form, carried)| refused(generation, &carried, UNLIKE_SIGNATURE, form))
}

/// Names that are near its own, with its signature: no table has them.
fn near_names(generation: Generation) -> impl Iterator<Item = Judged> {
    let own = generation.own();
    let names = near_unknown(&own.name.text).into_iter().step_by(2);
    names.enumerate().map(move |(form, name)| {
        let carried = Signature {
            name: Text::from(name.as_str()),
            ..own.clone()
        };
        refused(generation, &carried, UNKNOWN_FUNCTION, form)
    })
}

/// Kinds of arguments, how many more the call counts, and what document 01 says of it.
type Given = (Vec<Kind>, usize, u8);

/// Other counts than three, missing operands, and at each place every other kind.
fn wrong_arguments(own: &Signature) -> Vec<Given> {
    let of_count = |count: usize| -> Vec<Kind> {
        let kinds = (0..count).filter_map(|place| declared(own, place));
        kinds.collect()
    };
    let counts = [0, 1, 2, 4, 16].map(|count| (of_count(count), 0, 26));
    let missing = [0, 1, 2].map(|count| (of_count(count), 3 - count, 2));
    let mut given = [counts.as_slice(), &missing].concat();
    for place in 0..own.kinds.len() {
        for kind in Kind::ALL {
            let mut kinds = own.kinds.clone();
            kinds[place] = kind;
            if kinds != own.kinds {
                given.push((kinds, 0, 30));
            }
        }
    }
    given
}

/// A generation's own call with these arguments, behind other records.
fn called(generation: Generation, before: Records, (kinds, more, number): Given) -> Judged {
    let count = kinds.len() + more;
    let mut records = before;
    records.extend(kinds.into_iter().flat_map(shortest));
    let record = records.len();
    records.push(call(generation.own().clone(), count));
    let outcome = Outcome::Refused { number, record };
    let faults = own_faults(generation, None, record);
    Judged::new(write::page(&records), outcome, faults)
}

/// Fields behind the name that cannot be read, with their number.
#[rustfmt::skip]
const FIELDS: &[(&str, u8)] = &[
    ("", 1), ("03", 1), ("0302", 1), ("03020101", 1), ("03020101 00", 1), ("03020101 00 00", 1),
    ("03020104 00 00 03", 1), ("03020101 03 00 03", 1), ("03020101 0200 00 03", 1), ("03020101 00 04 03", 1),
    ("03020101 00 00 8300", 1), ("03020101 00 00 11", 3), ("03020101 0211 00 03", 3), ("11 01*17; 00 00 03", 3),
];

/// All fields come before the table, with both tables.
fn unreadable(generation: Generation, before: &Records, (fields, number): (&str, u8)) -> Judged {
    let arguments = "0202757000 0301 (000005)*2;";
    let record = before.len() + length(arguments);
    let mut page = write::page(before);
    let call = format!("{arguments} {} {fields}", named(generation));
    page.extend(hex::bytes(&call));
    Judged::same(page, Outcome::Refused { number, record })
}

/// A name that is none: its own with other signs.
fn unnamed(generation: Generation) -> Judged {
    let mut page = hex::bytes("0202757000 0301 (000005)*2;");
    let name = generation.own().name.text.replace('_', "-");
    page.extend([11, name.len() as u8]);
    page.extend(name.bytes());
    page.extend(hex::bytes("03020101 00 00 03"));
    let outcome = Outcome::Refused {
        number: 4,
        record: 4,
    };
    Judged::same(page, outcome)
}

fn of_generation(generation: Generation) -> impl Iterator<Item = Judged> {
    let wrong = wrong_arguments(generation.own());
    let given = move |given| called(generation, Records::new(), given);
    let fields = FIELDS
        .iter()
        .map(move |fields| unreadable(generation, &Records::new(), *fields));
    unlike(generation)
        .chain(near_names(generation))
        .chain(wrong.into_iter().map(given))
        .chain(fields)
        .chain([unnamed(generation)])
}

pub(super) fn fixed() -> impl Iterator<Item = Judged> {
    Generation::ALL.into_iter().flat_map(of_generation)
}

impl Generator<'_> {
    /// A generation's own call with wrong arguments, behind other queries.
    pub(super) fn own_arguments(&mut self) -> Judged {
        let generation = *self.random.pick(&Generation::ALL);
        let given = self.random.pick(&wrong_arguments(generation.own())).clone();
        // A query before the call would be the operand that is missing.
        let before = match given.2 {
            2 => Records::new(),
            _ => self.shared_context(),
        };
        called(generation, before, given)
    }

    /// A generation's own call with a field that cannot be read, behind other queries.
    pub(super) fn own_fields(&mut self) -> Judged {
        let generation = *self.random.pick(&Generation::ALL);
        let before = self.shared_context();
        unreadable(generation, &before, *self.random.pick(FIELDS))
    }
}
