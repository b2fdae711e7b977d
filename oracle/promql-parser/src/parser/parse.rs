//! Stub: the text parser is not among the published files, and is no reference here.

pub fn parse() {}
