//! Stub: number parsing is not among the published files.

pub fn parse_str_radix() {}
