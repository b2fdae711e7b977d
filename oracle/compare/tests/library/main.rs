//! The comparison itself, with stand-ins for the library.

mod copies;
mod fractions;
mod functions;
mod generations;
mod operators;
mod patterns;
mod planted;
mod resume;
mod standin;
mod texts;
