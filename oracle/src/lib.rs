//! The Rust crate promql-parser as the judge of pages.
//!
//! A page is read as document 01 says (`page`), driven record by record through the Rust's constructors and `check_ast`
//! (`tree`), and answered (`answer`), with the function table too (`functions`), as the operators document asks
//! (`operators`), and with the tables of two server generations (`generations`), which come from the functions
//! documents of Prometheus (`documents`). Pages come from a seed (`generate`) or from chosen rows (`chosen`);
//! `coverage` tells which classes of documents 01 and 02 they reached, `kept` writes the list that other programs
//! replay.

pub mod answer;
pub mod bad_fraction;
pub mod changes;
pub mod chosen;
pub mod copy;
pub mod coverage;
pub mod covered;
pub mod documents;
pub mod failing;
pub mod fields;
pub mod fill_pair;
pub mod functions;
pub mod generate;
pub mod generations;
pub mod hex;
pub mod ill_formed;
pub mod kept;
pub mod operators;
pub mod page;
pub mod program;
pub mod random;
pub mod reading;
pub mod refusal;
pub mod run;
pub mod show;
pub mod times;
pub mod tree;
pub mod uncovered;
