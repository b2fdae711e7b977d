//! Fractions (document 02, No. 5): their values, what stands on them and takes them, as fills, in texts of 100 and 101
//! bytes; and what is none.

mod fills;
mod operands;
mod refused;
mod values;
mod widths;

use super::Coverage;
use crate::answer::{Answer, Worked};

pub(super) fn classes() -> Vec<String> {
    [
        values::classes(),
        operands::classes(),
        fills::classes(),
        widths::classes(),
        refused::classes(),
    ]
    .concat()
}

/// The sign of a fraction, as classes name it.
fn sign(is_minus: bool) -> &'static str {
    ["plus", "minus"][usize::from(is_minus)]
}

impl Coverage {
    pub(super) fn fractions(&mut self, worked: &Worked, answer: &Answer) {
        self.fraction_operands(worked);
        self.no_fraction(worked);
        if let Some((tree, _)) = &worked.checked {
            for record in &worked.records {
                self.fraction_values(record);
                self.fraction_fills(record);
            }
            self.fraction_widths(tree, answer);
        }
    }
}
