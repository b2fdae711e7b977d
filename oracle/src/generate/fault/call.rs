//! Faulty calls: refusals 26 to 30.

use super::super::{Generator, Records};
use crate::page::record::*;

impl Generator<'_> {
    pub(super) fn signature(&mut self, kinds: &[Kind], extra: Extra) -> Signature<'static> {
        Signature {
            name: self.function_name(),
            kinds: kinds.to_vec(),
            extra,
            result: *self.random.pick(&Kind::ALL),
        }
    }

    fn kinds(&mut self, count: usize) -> Vec<Kind> {
        let mut kind = || *self.random.pick(&Kind::ALL);
        (0..count).map(|_| kind()).collect()
    }

    pub(super) fn call_fault(&mut self, number: u8) -> (Records, Record<'static>) {
        let upper = self.random.between(1, 3);
        let some_extra = *self
            .random
            .pick(&[Extra::Unlimited, Extra::Upper(upper as u64)]);
        let (declared, extra, arguments) = match number {
            26 => self.wrong_count(),
            27 => {
                let declared = self.random.between(2, 6);
                (declared, some_extra, self.random.between(0, declared - 2))
            }
            28 => {
                let declared = self.random.between(0, 3);
                let most = declared.saturating_sub(1) + upper;
                let arguments = self.random.between(most + 1, most + 3);
                (declared, Extra::Upper(upper as u64), arguments)
            }
            29 => (0, some_extra, self.random.between(1, upper)),
            _ => return self.wrong_argument(),
        };
        let kinds = self.kinds(declared);
        let before = (0..arguments)
            .flat_map(|_| self.one_of(&Kind::ALL))
            .collect();
        let signature = self.signature(&kinds, extra);
        (
            before,
            Record::Call {
                signature,
                arguments,
            },
        )
    }

    /// 26: the number of declared kinds, and another number of arguments.
    fn wrong_count(&mut self) -> (usize, Extra, usize) {
        let declared = self.random.between(0, 4);
        let counts = [declared + 1, declared + 2, declared / 2];
        let arguments = *self.random.pick(&counts);
        if arguments == declared {
            (0, Extra::Fixed, 1)
        } else {
            (declared, Extra::Fixed, arguments)
        }
    }

    /// 30: one argument of another kind than declared; or a literal that falls under no exception.
    fn wrong_argument(&mut self) -> (Records, Record<'static>) {
        if self.random.chance(30) {
            return self.unexcused_literal();
        }
        let declared = self.random.between(1, 3);
        let kinds = self.kinds(declared);
        let (extra, arguments) = if self.random.chance(50) {
            (Extra::Fixed, declared)
        } else {
            (
                Extra::Unlimited,
                self.random.between(declared, declared + 3),
            )
        };
        let wrong = self.random.below(arguments);
        let mut before = Vec::new();
        for index in 0..arguments {
            let kind = kinds[index.min(declared - 1)];
            let given = if index == wrong {
                let others: Vec<Kind> = Kind::ALL.into_iter().filter(|k| *k != kind).collect();
                *self.random.pick(&others)
            } else {
                kind
            };
            before.extend(self.small(given));
        }
        let signature = self.signature(&kinds, extra);
        (
            before,
            Record::Call {
                signature,
                arguments,
            },
        )
    }

    fn positive(&mut self) -> Number {
        if self.draws_fraction() {
            return Number::Fraction(self.fraction());
        }
        Number::Whole(self.magnitude().max(1))
    }

    fn unexcused_literal(&mut self) -> (Records, Record<'static>) {
        let (name, before) = match self.random.below(4) {
            0 if self.draws_fraction() => ("exp", vec![Record::Number(self.signed_fraction())]),
            0 => ("exp", vec![Record::Number(Number::Whole(self.magnitude()))]),
            1 => (
                *self.random.pick(&["ln", "log2", "log10"]),
                vec![Record::Number(self.positive())],
            ),
            2 => (
                *self.random.pick(&["exp", "ln", "log2", "log10"]),
                vec![Record::Number(self.literal()), Record::Paren],
            ),
            _ => ("LN", vec![Record::Number(self.literal())]),
        };
        let mut signature = self.signature(&[Kind::Vector], Extra::Fixed);
        signature.name = Text::from(name);
        (
            before,
            Record::Call {
                signature,
                arguments: 1,
            },
        )
    }
}
