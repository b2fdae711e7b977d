//! The pages of document 02, No. 13: the checks with the tables of the two generations, and which of them accept. The
//! request's come first, then those of readings that it has no page for.

use super::{kind, refused, row, Expected, Row};
use crate::answer::Outcome;
use crate::generations::Generations::{self, Both, Neither, Newer, Older};
use crate::page::record::Kind::{Matrix, Scalar, String, Vector};

const fn judged(
    words: &'static str,
    page: &'static str,
    (older, newer): (Outcome, Outcome),
    generations: Generations,
) -> Row {
    let expected = Expected::ChecksGenerations {
        older,
        newer,
        generations,
    };
    row(words, page, expected)
}

/// Both say the same.
const fn same(
    words: &'static str,
    page: &'static str,
    both: Outcome,
    generations: Generations,
) -> Row {
    judged(words, page, (both, both), generations)
}

#[rustfmt::skip]
pub const ROWS: &[Row] = &[
    same("`up`", "0202757000", kind(Vector), Both),
    same("`rate(up[1ms])`", "020275700003010b04726174650102000001", kind(Vector), Both),
    judged("`holt_winters(up[1ms], 5, 5)`", "020275700003010000050000050b0c686f6c745f77696e7465727303020101000003", (kind(Vector), refused(37, 4)), Older),
    judged("`double_exponential_smoothing(up[1ms], 5, 5)`", "020275700003010000050000050b1c646f75626c655f6578706f6e656e7469616c5f736d6f6f7468696e6703020101000003", (refused(37, 4), kind(Vector)), Newer),
    judged("the two added", "020275700003010000050000050b0c686f6c745f77696e7465727303020101000003 020275700003010000050000050b1c646f75626c655f6578706f6e656e7469616c5f736d6f6f7468696e6703020101000003 090100", (refused(37, 9), refused(37, 4)), Neither),
    judged("holt_winters, upper 1", "020275700003010000050000050b0c686f6c745f77696e746572730302010102010003", (refused(38, 4), refused(37, 4)), Neither),
    judged("holt_winters of two arguments", "020275700003010000050b0c686f6c745f77696e7465727303020101000002", (refused(26, 3), refused(37, 3)), Neither),
    judged("holt_winters of a vector", "02027570000000050000050b0c686f6c745f77696e7465727303020101000003", (refused(30, 3), refused(37, 3)), Neither),
    same("`info(up, up)`", "020275700002027570000b04696e666f02000002010002", kind(Vector), Both),
    same("`info(up)`", "02027570000b04696e666f02000002010001", kind(Vector), Both),
    same("`first_over_time(up[1ms])`", "020275700003010b0f66697273745f6f7665725f74696d650102000001", refused(37, 2), Neither),
    same("`ts_of_max_over_time(up[1ms])`", "020275700003010b1374735f6f665f6d61785f6f7665725f74696d650102000001", refused(37, 2), Neither),
    same("`mad_over_time(up[1ms])`", "020275700003010b0d6d61645f6f7665725f74696d650102000001", kind(Vector), Both),
    same("`sort_by_label(up, \"a\")`", "02027570000101610b0d736f72745f62795f6c6162656c020003010002", kind(Vector), Both),
    same("`max_of(5, 5)`", "0000050000050b066d61785f6f66020101000102", refused(37, 2), Neither),
    same("label_join of 5, four kinds", "02027570000101610101610101610101610b0a6c6162656c5f6a6f696e0400030303010005", kind(Vector), Both),
    same("label_join of 5, five kinds", "02027570000101610101610101610101610b0a6c6162656c5f6a6f696e050003030303010005", refused(38, 5), Neither),
    same("`limitk(\"a\", up)`: not No. 8's check", "01016102027570000a1d0002", kind(Vector), Both),
    same("`ln(0)`: the literal exception", "0000000b026c6e0100000001", kind(Vector), Both),
    same("`sum(1)`", "0000010a1b0001", refused(25, 1), Neither),
    same("the empty page", "", refused(2, 0), Neither),

    same("byte 99", "63", refused(1, 0), Neither),
    same("257 records", "0202757000 08*256;", refused(3, 256), Neither),
    same("`1`: a scalar", "000001", kind(Scalar), Both),
    same("`up[1ms]`: a matrix", "02027570000301", kind(Matrix), Both),
    same("`\"é\"`: a string, and No. 10", "0102c3a9", kind(String), Both),
    same("`quantile_over_time(0.95, up[1ms])`: No. 5", "00055f0202027570000301 0b127175616e74696c655f6f7665725f74696d650201020000 02", kind(Vector), Both),
    same("`up{a=~\"x\"}`, flag 1: No. 7", "0202757001020161017801", refused(41, 0), Neither),
    same("a call of `f` that gives a string", "0b016600000300", refused(37, 0), Neither),
    judged("`scalar(holt_winters(up[1ms], 5, 5))`", "0202757000 0301 (000005)*2; 0b0c686f6c745f77696e7465727303020101000003 0b067363616c61720100000101", (kind(Scalar), refused(37, 4)), Older),
    judged("`holt_winters(up[1ms], 5, 5)[1ms:]`", "0202757000 0301 (000005)*2; 0b0c686f6c745f77696e7465727303020101000003 040100", (kind(Matrix), refused(37, 4)), Older),
    judged("`scalar(double_exponential_smoothing(up[1ms], 5, 5))`", "0202757000 0301 (000005)*2; 0b1c646f75626c655f6578706f6e656e7469616c5f736d6f6f7468696e6703020101000003 0b067363616c61720100000101", (refused(37, 4), kind(Scalar)), Newer),
    judged("the two added, the newer first", "0202757000 0301 (000005)*2; 0b1c646f75626c655f6578706f6e656e7469616c5f736d6f6f7468696e6703020101000003 0202757000 0301 (000005)*2; 0b0c686f6c745f77696e7465727303020101000003 090100", (refused(37, 4), refused(37, 9)), Neither),
    judged("the older in the newer", "0202757000 0301 (000005)*2; 0b0c686f6c745f77696e7465727303020101000003 040100 (000005)*2; 0b1c646f75626c655f6578706f6e656e7469616c5f736d6f6f7468696e6703020101000003", (refused(37, 8), refused(37, 4)), Neither),
    judged("the newer in the older", "0202757000 0301 (000005)*2; 0b1c646f75626c655f6578706f6e656e7469616c5f736d6f6f7468696e6703020101000003 040100 (000005)*2; 0b0c686f6c745f77696e7465727303020101000003", (refused(37, 4), refused(37, 8)), Neither),
    judged("holt_winters in holt_winters", "0202757000 0301 (000005)*2; 0b0c686f6c745f77696e7465727303020101000003 040100 (000005)*2; 0b0c686f6c745f77696e7465727303020101000003", (kind(Vector), refused(37, 4)), Older),
    same("`max_of(5, 5)`, then holt_winters", "(000005)*2; 0b066d61785f6f66020101000102 0202757000 0301 (000005)*2; 0b0c686f6c745f77696e7465727303020101000003 090100", refused(37, 2), Neither),
    judged("holt_winters, then `max_of(5, 5)`", "0202757000 0301 (000005)*2; 0b0c686f6c745f77696e7465727303020101000003 (000005)*2; 0b066d61785f6f66020101000102 090100", (refused(37, 7), refused(37, 4)), Neither),
    judged("holt_winters, unlimited", "0202757000 0301 (000005)*2; 0b0c686f6c745f77696e7465727303020101010003", (refused(38, 4), refused(37, 4)), Neither),
    same("holt_winters, upper 0: not on a page", "0202757000 0301 (000005)*2; 0b0c686f6c745f77696e746572730302010102000003", refused(1, 4), Neither),
    judged("holt_winters that gives a scalar", "0202757000 0301 (000005)*2; 0b0c686f6c745f77696e7465727303020101000103", (refused(38, 4), refused(37, 4)), Neither),
    judged("holt_winters of two kinds", "0202757000 0301 000005 0b0c686f6c745f77696e74657273020201000002", (refused(38, 3), refused(37, 3)), Neither),
    judged("double_exponential_smoothing, upper 1", "0202757000 0301 (000005)*2; 0b1c646f75626c655f6578706f6e656e7469616c5f736d6f6f7468696e670302010102010003", (refused(37, 4), refused(38, 4)), Neither),
    judged("double_exponential_smoothing of four arguments", "0202757000 0301 (000005)*3; 0b1c646f75626c655f6578706f6e656e7469616c5f736d6f6f7468696e6703020101000004", (refused(37, 5), refused(26, 5)), Neither),
    judged("double_exponential_smoothing of a string", "0202757000 0301 000005 010161 0b1c646f75626c655f6578706f6e656e7469616c5f736d6f6f7468696e6703020101000003", (refused(37, 4), refused(30, 4)), Neither),
    same("`Holt_winters`", "0202757000 0301 (000005)*2; 0b0c486f6c745f77696e7465727303020101000003", refused(37, 4), Neither),
    same("`holt_winter`", "0202757000 0301 (000005)*2; 0b0b686f6c745f77696e74657203020101000003", refused(37, 4), Neither),
    same("`holt_winters_`", "0202757000 0301 (000005)*2; 0b0d686f6c745f77696e746572735f03020101000003", refused(37, 4), Neither),
    judged("holt_winters, empty stack", "0b0c686f6c745f77696e7465727303020101000003", (refused(2, 0), refused(37, 0)), Neither),
    judged("double_exponential_smoothing, empty stack", "0b1c646f75626c655f6578706f6e656e7469616c5f736d6f6f7468696e6703020101000003", (refused(37, 0), refused(2, 0)), Neither),
    judged("holt_winters, then byte 99", "0202757000 0301 (000005)*2; 0b0c686f6c745f77696e7465727303020101000003 63", (refused(1, 5), refused(37, 4)), Neither),
    judged("holt_winters, then `up`", "0202757000 0301 (000005)*2; 0b0c686f6c745f77696e7465727303020101000003 0202757000", (refused(2, 6), refused(37, 4)), Neither),
    judged("holt_winters + \"a\"", "0202757000 0301 (000005)*2; 0b0c686f6c745f77696e7465727303020101000003 010161 090100", (refused(22, 6), refused(37, 4)), Neither),
    same("`{}`, then holt_winters", "020000 0202757000 0301 (000005)*2; 0b0c686f6c745f77696e7465727303020101000003", refused(34, 0), Neither),
    same("holt_winters, its count cut off", "0202757000 0301 (000005)*2; 0b0c686f6c745f77696e74657273030201010000", refused(1, 4), Neither),
    judged("256th record holt_winters", "0202757000 0301 000005 000005 07*251; 0b0c686f6c745f77696e7465727303020101000003", (kind(Vector), refused(37, 255)), Older),
    same("257th record holt_winters", "0202757000 0301 000005 000005 07*252; 0b0c686f6c745f77696e7465727303020101000003", refused(3, 256), Neither),
    same("`sort_by_label_desc(up)`", "02027570000b12736f72745f62795f6c6162656c5f64657363020003010001", kind(Vector), Both),
    same("`sort_desc(up)`", "02027570000b09736f72745f646573630100000001", kind(Vector), Both),
    same("`year()`", "0b0479656172010002010000", kind(Vector), Both),
    same("`year()`, fixed", "0b04796561720100000000", refused(38, 0), Neither),
    same("`round(up, 1)`", "02027570000000010b05726f756e6402000102010002", kind(Vector), Both),
    same("`time()`", "0b0474696d6500000100", kind(Scalar), Both),
    same("`pi(up)`: 26, not 29", "02027570000b02706900000101", refused(26, 1), Neither),
    same("`ln(0)`, unlimited", "0000000b026c6e0100010001", refused(38, 1), Neither),
    same("`info(up, 1)`", "02027570000000010b04696e666f02000002010002", refused(30, 2), Neither),
    same("`info(up, up)`, fixed", "020275700002027570000b04696e666f020000000002", refused(38, 2), Neither),
];
