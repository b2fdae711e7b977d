//! A limitk or limit_ratio inside another: which of the two is faulty, and where the inner one stands; two beside each
//! other; and the most that a page holds.

use super::super::Coverage;
use super::{refused_with_42, Limit};
use crate::answer::Worked;

const NESTED: [&str; 9] = [
    "operators: a limit as the operand of a limit, neither faulty",
    "operators: a limit as the operand of a limit, the inner faulty",
    "operators: a limit as the operand of a limit, the outer faulty",
    "operators: a limit as the operand of a limit, both faulty",
    "operators: a limit as the parameter of a limit, the outer faulty",
    "operators: a limit as the parameter of a limit, both faulty",
    "operators: two faulty limits beside each other",
    "operators: a faulty limit behind one that is not",
    "operators: 127 limits on a page",
];

pub(super) fn classes() -> Vec<String> {
    NESTED.map(String::from).to_vec()
}

impl Coverage {
    pub(super) fn nested_limits(&mut self, worked: &Worked, limits: &[Limit]) {
        let at = |place: usize| limits.iter().find(|limit| limit.place == place);
        for outer in limits {
            if let Some(inner) = at(outer.operand) {
                let place = usize::from(inner.is_faulty) + 2 * usize::from(outer.is_faulty);
                self.hit(NESTED[place]);
            }
            // The inner one leaves a vector, so that the outer one is always faulty.
            if let Some(inner) = at(outer.parameter) {
                self.hit(NESTED[4 + usize::from(inner.is_faulty)]);
            }
        }
        self.hit_if(limits.len() == 127, NESTED[8]);
        let Some(record) = refused_with_42(worked) else {
            return;
        };
        let is_beside = |limit: &Limit| limit.is_faulty && limit.parameter > record;
        self.hit_if(limits.iter().any(is_beside), NESTED[6]);
        self.hit_if(limits[0].place < record, NESTED[7]);
    }
}
