//! The literal exception on fractions: of `ln`, `log2` and `log10` every value below 0, of `exp` none; a paren ends it.

use super::super::{Generator, Made, Records};
use super::values::{fraction, signed};
use crate::answer::Outcome;
use crate::page::record::*;
use crate::page::write;

pub const NAMES: [&str; 4] = ["exp", "ln", "log2", "log10"];

/// Unary records that are tried on a bare number.
pub const MOST_UNARY: usize = 3;

/// What is tried on a number beside unary records alone.
const WITH_PAREN: [&[Record]; 3] = [
    &[Record::Paren],
    &[Record::Unary, Record::Paren],
    &[Record::Paren, Record::Unary],
];

/// Whether a call of this name is excused, its bare argument being a fraction of this sign.
pub fn is_excused(name: &str, is_minus: bool) -> bool {
    name != "exp" && is_minus
}

/// A call of a fraction with records on it.
struct Call {
    name: &'static str,
    number: Number,
    on: Records,
    /// Without a declared kind a call that is not excused is 29, else 30.
    has_kind: bool,
}

impl Call {
    fn made(self) -> Made {
        let expected = self.outcome();
        let mut records: Records = vec![Record::Number(self.number)];
        records.extend(self.on);
        let (kinds, extra) = match self.has_kind {
            true => (vec![Kind::Vector], Extra::Fixed),
            false => (Vec::new(), Extra::Unlimited),
        };
        records.push(Record::Call {
            signature: Signature {
                name: Text::from(self.name),
                kinds,
                extra,
                result: Kind::Vector,
            },
            arguments: 1,
        });
        Made::new(write::page(&records), expected)
    }

    fn outcome(&self) -> Outcome {
        let is_negative = matches!(self.number, Number::NegativeFraction(_));
        let is_minus = is_negative != (self.on.len() % 2 == 1);
        let is_bare = !self.on.contains(&Record::Paren);
        match is_bare && is_excused(self.name, is_minus) {
            true => Outcome::Accepted(Kind::Vector),
            false => Outcome::Refused {
                number: if self.has_kind { 30 } else { 29 },
                record: 1 + self.on.len(),
            },
        }
    }
}

/// Unary records alone, then those with a paren.
fn on() -> Vec<Records> {
    let bare = (0..=MOST_UNARY).map(|unary| vec![Record::Unary; unary]);
    bare.chain(WITH_PAREN.map(<[Record]>::to_vec)).collect()
}

pub(super) fn fixed() -> impl Iterator<Item = Made> {
    let numbers = signed(fraction(5, 1));
    let called = NAMES
        .into_iter()
        .flat_map(move |name| numbers.map(|number| (name, number)));
    called.flat_map(|(name, number)| {
        let call = move |on, has_kind| Call {
            name,
            number,
            on,
            has_kind,
        };
        let declared = on().into_iter().map(move |on| call(on, true));
        let undeclared = [call(Vec::new(), false)];
        declared.chain(undeclared).map(Call::made)
    })
}

impl Generator<'_> {
    pub(super) fn call_of_fraction(&mut self) -> Made {
        let call = Call {
            name: self.random.pick::<&str>(&NAMES),
            number: self.signed_fraction(),
            on: self.random.pick(&on()).clone(),
            has_kind: self.random.chance(85),
        };
        call.made()
    }
}
