//! The library held against the oracle, call by call, timed beside the Rust, and its instructions counted.
//!
//! `library` is the library's face, `memory` lends it pages and buffers between guards, `judge` compares what it
//! answers and what it writes, `run` goes over generated pages in several threads, `resume` over many of them with
//! stops, `short_texts` over all short texts, `fractions` over many fractions, `patterns` over all short patterns and
//! many others, `copies` over pairs of pages of one tree and of two, `functions` over names and signatures near those
//! of the function table, `operators` over pages with limitk and limit_ratio, `generations` over pages for the two
//! server generations, `bench` measures, with `ends` as its floor, `beside` measures two archives in one run,
//! `instructions` counts on fixed pages and `pattern_costs` on patterns, with `callgrind`. `text_test` runs and times
//! the test of texts by itself.

pub mod bench;
pub mod beside;
pub mod callgrind;
mod clock;
pub mod copies;
mod ends;
pub mod fractions;
pub mod functions;
pub mod generations;
pub mod instructions;
pub mod judge;
pub mod library;
pub mod memory;
pub mod operators;
pub mod pattern_costs;
pub mod patterns;
pub mod resume;
pub mod run;
pub mod short_texts;
pub mod text_test;
mod trap;
