//! Libraries whose answers for the two generations (document 02, No. 13) are wrong: `checks` those of the checks with
//! their tables, by `tables` or by when they are asked, and `answers` those of which generations accept.

mod answers;
mod checks;
mod tables;

pub use answers::{faulty_answers, sound};
pub use checks::faulty_checks;
