//! Libraries that are wrong about the function table (document 02, No. 2): a fault each, in the check with the table
//! (`checks`, `rules`) or in the call for signatures (`signatures`).

mod checks;
mod rules;
mod signatures;

pub use checks::faulty_checks;
pub use signatures::{faulty_signatures, reads_behind, writes_behind, writes_name};
