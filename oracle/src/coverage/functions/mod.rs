//! Calls and the function table (document 02, No. 2): each function as the table has it, signatures unlike it and names
//! that it lacks (`calls`), the outcomes of the check with the table (`outcomes`), and what comes before and after 37
//! and 38 (`order`).

mod calls;
mod order;
mod outcomes;

pub(super) use calls::{needs_excuse, EXCUSED};

use super::Coverage;
use crate::answer::Worked;

pub(super) fn classes() -> Vec<String> {
    [calls::classes(), outcomes::classes(), order::classes()].concat()
}

impl Coverage {
    pub(super) fn functions(&mut self, worked: &Worked) {
        self.table_outcome(worked);
        self.table_calls(worked);
        self.table_order(worked);
    }
}
