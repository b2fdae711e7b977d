//! @ and offset (document 02, No. 14): their forms and lengths on each expression that can have them (`forms`), what
//! stands around them (`around`), long copies and what else the copy changes (`sizes`), and what is refused
//! (`refused`).

mod around;
mod forms;
mod refused;
mod sizes;

use super::Coverage;
use crate::answer::{Answer, Worked};
use crate::times;

pub(super) fn classes() -> Vec<String> {
    [
        forms::classes(),
        around::classes(),
        sizes::classes(),
        refused::classes(),
    ]
    .concat()
}

impl Coverage {
    pub(super) fn times(&mut self, worked: &Worked, answer: &Answer) {
        if worked.checked.is_none() {
            return self.refused_times(worked);
        }
        let records = &worked.records;
        for (start, times) in times::found(records) {
            self.time_forms(records, start, times);
            self.behind_times(records, start, times);
        }
        self.beside_times(records);
        self.swapped_times(worked, answer);
    }
}
