//! docs/DIFFERENCES.md tells the truth: the answers of its rows, and how small their pages are.

mod also;
mod answers;
mod copies;
mod document;
mod flags;
mod functions;
mod generations;
mod operators;
mod queries;
mod records;
mod search;
mod smallest;
