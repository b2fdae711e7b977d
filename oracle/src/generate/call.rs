//! Good calls: a signature first, then arguments that it takes; and calls under the literal exception.

use super::{Generator, Records};
use crate::page::record::*;

type KnownFunction = (&'static str, &'static [Kind], Extra, Kind);

use Kind::{Matrix, Scalar, String as Words, Vector};

/// Some rows of the Rust's own table (function.rs).
const KNOWN: &[KnownFunction] = &[
    ("abs", &[Vector], Extra::Fixed, Vector),
    ("absent", &[Vector], Extra::Fixed, Vector),
    ("clamp", &[Vector, Scalar, Scalar], Extra::Fixed, Vector),
    ("day_of_month", &[Vector], Extra::Upper(1), Vector),
    (
        "histogram_quantile",
        &[Scalar, Vector],
        Extra::Fixed,
        Vector,
    ),
    ("increase", &[Matrix], Extra::Fixed, Vector),
    (
        "label_join",
        &[Vector, Words, Words, Words],
        Extra::Unlimited,
        Vector,
    ),
    (
        "label_replace",
        &[Vector, Words, Words, Words, Words],
        Extra::Fixed,
        Vector,
    ),
    ("max_over_time", &[Matrix], Extra::Fixed, Vector),
    ("predict_linear", &[Matrix, Scalar], Extra::Fixed, Vector),
    (
        "quantile_over_time",
        &[Scalar, Matrix],
        Extra::Fixed,
        Vector,
    ),
    ("rate", &[Matrix], Extra::Fixed, Vector),
    ("round", &[Vector, Scalar], Extra::Upper(1), Vector),
    ("scalar", &[Vector], Extra::Fixed, Scalar),
    ("sort", &[Vector], Extra::Fixed, Vector),
    ("time", &[], Extra::Fixed, Scalar),
    ("vector", &[Scalar], Extra::Fixed, Vector),
];

impl Generator<'_> {
    pub fn call_without_arguments(&mut self, result: Kind) -> Record<'static> {
        let (kinds, extra) = match self.random.below(4) {
            0 => (vec![*self.random.pick(&Kind::ALL)], Extra::Unlimited),
            1 => (vec![*self.random.pick(&Kind::ALL)], self.upper()),
            2 => (Vec::new(), self.upper()),
            _ => (Vec::new(), Extra::Fixed),
        };
        Record::Call {
            signature: Signature {
                name: self.function_name(),
                kinds,
                extra,
                result,
            },
            arguments: 0,
        }
    }

    fn upper(&mut self) -> Extra {
        Extra::Upper(self.random.between(1, 16) as u64)
    }

    /// A call with at least one argument, `size` records in all.
    pub fn call(&mut self, result: Kind, size: usize) -> Records {
        let most = (size - 1).min(16);
        match self.random.below(10) {
            0 if size >= 2 => self.excused_call(result, size),
            1..=5 => self.known_call(result, size, most),
            _ => self.any_call(result, size, most),
        }
    }

    fn known_call(&mut self, result: Kind, size: usize, most: usize) -> Records {
        let fitting: Vec<&KnownFunction> = KNOWN
            .iter()
            .filter(|row| row.3 == result && (1..=most).contains(&row.1.len()))
            .collect();
        if fitting.is_empty() {
            return self.any_call(result, size, most);
        }
        let (name, kinds, extra, result) = **self.random.pick(&fitting);
        let signature = Signature {
            name: Text::from(name),
            kinds: kinds.to_vec(),
            extra,
            result,
        };
        self.arguments_of(signature, kinds.len(), size)
    }

    /// A made-up signature and a count of arguments that it allows.
    fn any_call(&mut self, result: Kind, size: usize, most: usize) -> Records {
        let arguments = self.random.between(1, most.min(4));
        let extra = match self.random.below(3) {
            0 => Extra::Fixed,
            1 => Extra::Unlimited,
            _ => self.upper(),
        };
        let declared = match extra {
            Extra::Fixed => arguments,
            Extra::Unlimited => self.random.between(1, (arguments + 1).min(16)),
            Extra::Upper(upper) => {
                let least = (arguments + 1).saturating_sub(upper as usize).max(1);
                self.random.between(least, (arguments + 1).min(16))
            }
        };
        let kinds = (0..declared)
            .map(|_| *self.random.pick(&[Vector, Vector, Scalar, Matrix, Words]))
            .collect();
        let signature = Signature {
            name: self.function_name(),
            kinds,
            extra,
            result,
        };
        self.arguments_of(signature, arguments, size)
    }

    /// The arguments by the declared kinds, the last one repeating, and the call.
    fn arguments_of(
        &mut self,
        signature: Signature<'static>,
        arguments: usize,
        size: usize,
    ) -> Records {
        let shares = self.random.shares(size - 1, arguments);
        let mut records = Vec::new();
        for (index, share) in shares.into_iter().enumerate() {
            let kind = signature.kinds[index.min(signature.kinds.len() - 1)];
            records.extend(self.expression(kind, share));
        }
        records.push(Record::Call {
            signature,
            arguments,
        });
        records
    }

    /// A call under the literal exception: a bare number first, then anything; also without declared kinds.
    fn excused_call(&mut self, result: Kind, size: usize) -> Records {
        let name = *self.random.pick(&["exp", "ln", "log2", "log10"]);
        let mut records = vec![Record::Number(self.excused_number(name))];
        let mut arguments = 1;
        if size > 2 {
            let kind = *self.random.pick(&Kind::ALL);
            records.extend(self.expression(kind, size - 2));
            arguments = 2;
        }
        let kinds = if self.random.chance(30) {
            Vec::new()
        } else {
            vec![Vector]
        };
        let extra = if arguments == 1 && kinds.len() == 1 && self.random.chance(50) {
            Extra::Fixed
        } else {
            Extra::Unlimited
        };
        records.push(Record::Call {
            signature: Signature {
                name: Text::from(name),
                kinds,
                extra,
                result,
            },
            arguments,
        });
        records
    }

    fn excused_number(&mut self, name: &str) -> Number {
        let special = [Number::NaN, Number::Inf, Number::NegativeInf];
        if name == "exp" || self.random.chance(30) {
            return *self.random.pick(&special);
        }
        match self.random.below(3) {
            0 => Number::Whole(0),
            1 => Number::NegativeWhole(0),
            _ if self.draws_fraction() => Number::NegativeFraction(self.fraction()),
            _ => Number::NegativeWhole(self.magnitude()),
        }
    }
}
