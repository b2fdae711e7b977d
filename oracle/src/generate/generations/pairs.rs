//! Two calls of the generations' own functions on a page: each of every form, beside each other, one in the other, or
//! with nothing that takes them.

use super::{named, Fault, Judged};
use crate::answer::Outcome;
use crate::generate::around::length;
use crate::generate::Generator;
use crate::generations::Generation;
use crate::hex;
use crate::page::record::Kind;
use crate::refusal::{UNKNOWN_FUNCTION, UNLIKE_SIGNATURE};

/// A call of a generation's own function.
#[derive(Clone, Copy)]
struct Form {
    /// Whether the first argument is a matrix: `up[1ms]`, or a subquery; otherwise it is a vector.
    is_matrix: bool,
    /// The other arguments.
    others: &'static str,
    /// The signature and the count of arguments.
    carried: &'static str,
    /// What document 01 says of it, and what its own table does.
    check: Option<u8>,
    table: Option<u8>,
}

const RIGHT: Form = Form {
    is_matrix: true,
    others: "000005 000005",
    carried: "03020101 00 00 03",
    check: None,
    table: None,
};

const fn unlike(others: &'static str, carried: &'static str, check: Option<u8>) -> Form {
    Form {
        others,
        carried,
        check,
        table: Some(UNLIKE_SIGNATURE),
        ..RIGHT
    }
}

const fn counted(others: &'static str, carried: &'static str) -> Form {
    Form {
        others,
        carried,
        check: Some(26),
        ..RIGHT
    }
}

const TWO: &str = "000005 000005";

/// As the table has it; another result, extra, kind, or count of kinds; other counts and kinds of arguments.
const FORMS: [Form; 11] = [
    RIGHT,
    unlike(TWO, "03020101 00 01 03", None),
    unlike(TWO, "03020101 01 00 03", None),
    unlike(TWO, "03020101 0201 00 03", None),
    unlike(TWO, "03020100 00 00 03", Some(30)),
    unlike("000005", "020201 00 00 02", None),
    unlike("000005 000005 000005", "0402010101 00 00 04", None),
    counted("000005", "03020101 00 00 02"),
    counted("000005 000005 000005", "03020101 00 00 04"),
    Form {
        is_matrix: false,
        check: Some(30),
        ..RIGHT
    },
    Form {
        others: "000005 010161",
        check: Some(30),
        ..RIGHT
    },
];

/// How the second call stands to the first.
#[derive(Clone, Copy)]
enum Joined {
    /// `first + second`.
    Added,
    /// The first is the second's first argument.
    First,
    /// The first is the second's second argument, as a scalar.
    Second,
    /// Both are left at the end.
    Apart,
}

const JOINED: [Joined; 4] = [Joined::Added, Joined::First, Joined::Second, Joined::Apart];

/// A call's form, and the generation whose own function it calls.
type Own = (Form, Generation);

/// The records of a call whose first argument is this vector.
fn called((form, generation): Own, first: &str, range: &str) -> String {
    let range = if form.is_matrix { range } else { "" };
    let name = named(generation);
    let Form {
        others, carried, ..
    } = form;
    format!("{first} {range} {others} {name} {carried}")
}

/// What a table has against the two calls at these records.
fn fault(table: Generation, calls: [(Own, usize); 2]) -> Fault {
    let faults = calls
        .into_iter()
        .filter_map(|((form, generation), record)| {
            let number = match generation == table {
                true => form.table,
                false => Some(UNKNOWN_FUNCTION),
            };
            number.map(|number| (number, record))
        });
    faults.min_by_key(|(_, record)| *record)
}

fn joined(first: Own, second: Own, joined: Joined) -> Judged {
    let inner = called(first, "0202757000", "0301");
    let scalar = "0b067363616c61720100000101";
    let page = match joined {
        Joined::Added => format!("{inner} {} 090100", called(second, "0202757000", "0301")),
        Joined::Apart => format!("{inner} {}", called(second, "0202757000", "0301")),
        Joined::First => called(second, &inner, "040100"),
        Joined::Second => {
            let (form, generation) = second;
            let others = form.others.replacen("000005", "", 1);
            let range = if form.is_matrix { "0301" } else { "" };
            let (name, carried) = (named(generation), form.carried);
            format!("0202757000 {range} {inner} {scalar} {others} {name} {carried}")
        }
    };
    let records = length(&page);
    let before = match joined {
        Joined::Second => 1 + usize::from(second.0.is_matrix),
        _ => 0,
    };
    let behind = usize::from(matches!(joined, Joined::Added));
    let places = [before + length(&inner) - 1, records - behind - 1];
    let end = match joined {
        Joined::Apart => Outcome::Refused {
            number: 2,
            record: records,
        },
        _ => Outcome::Accepted(Kind::Vector),
    };
    let checks = [first, second].map(|(form, _)| form.check);
    let mut refused = checks.into_iter().zip(places);
    let outcome = refused.find_map(|(check, record)| {
        let number = check?;
        Some(Outcome::Refused { number, record })
    });
    let calls = [(first, places[0]), (second, places[1])];
    let faults = Generation::ALL.map(|table| fault(table, calls));
    Judged::new(hex::bytes(&page), outcome.unwrap_or(end), faults)
}

fn every_own() -> impl Iterator<Item = Own> {
    FORMS
        .into_iter()
        .flat_map(|form| Generation::ALL.map(|generation| (form, generation)))
}

/// Every form of each generation's own call with every other, joined in every way.
pub fn pairs() -> impl Iterator<Item = Judged> {
    let pairs = every_own().flat_map(|first| every_own().map(move |second| (first, second)));
    pairs.flat_map(|(first, second)| JOINED.map(|how| joined(first, second, how)))
}

/// All pairs of calls as the tables have them, and some of the others.
pub(super) fn fixed() -> impl Iterator<Item = Judged> {
    let own = |generation| (RIGHT, generation);
    let right = Generation::ALL.into_iter().flat_map(move |first| {
        Generation::ALL
            .into_iter()
            .flat_map(move |second| JOINED.map(|how| joined(own(first), own(second), how)))
    });
    right.chain(pairs().step_by(9))
}

impl Generator<'_> {
    pub(super) fn pair(&mut self) -> Judged {
        let all: Vec<Own> = every_own().collect();
        let [first, second] = [0; 2].map(|_| *self.random.pick(&all));
        joined(first, second, *self.random.pick(&JOINED))
    }
}
