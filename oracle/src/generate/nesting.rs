//! Deep nesting, for benchmarks: one series for each record that nests.

use crate::hex;

/// The numbers of records that are tried.
pub const DEPTHS: [usize; 4] = [10, 50, 100, 250];

/// Pages of about this many records: parens, binaries leaning left and right, aggregates.
pub fn series(records: usize) -> Vec<(&'static str, Vec<u8>)> {
    let operands = records.div_ceil(2);
    let notations = [
        ("parens", format!("0202757000 (08)*{};", records - 1)),
        (
            "binaries leaning left",
            format!("0202757000 (0202757000 090100)*{};", operands - 1),
        ),
        (
            "binaries leaning right",
            format!("(0202757000)*{operands}; (090100)*{};", operands - 1),
        ),
        (
            "aggregates",
            format!("0202757000 (0a1b01 01 0178 01)*{};", records - 1),
        ),
    ];
    notations
        .into_iter()
        .map(|(words, notation)| (words, hex::bytes(&notation)))
        .collect()
}
