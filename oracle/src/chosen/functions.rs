//! The pages of document 02, No. 2: document 01's check beside the check with the function table.

use super::{kind, refused, row, Expected, Row};
use crate::answer::Outcome;
use crate::page::record::Kind::{Scalar, Vector};

const fn table(words: &'static str, page: &'static str, check: Outcome, table: Outcome) -> Row {
    row(words, page, Expected::Checks { check, table })
}

const fn same(words: &'static str, page: &'static str, both: Outcome) -> Row {
    table(words, page, both, both)
}

#[rustfmt::skip]
pub const ROWS: &[Row] = &[
    same("`abs(up)`, the first name", "02027570000b036162730100000001", kind(Vector)),
    same("`year()`, the last name", "0b0479656172010002010000", kind(Vector)),
    same("`time()`", "0b0474696d6500000100", kind(Scalar)),
    same("`double_exponential_smoothing(up[1ms], 5, 5)`, the longest name", "020275700003010000050000050b1c646f75626c655f6578706f6e656e7469616c5f736d6f6f7468696e6703020101000003", kind(Vector)),
    table("`holt_winters` alike: not in this table", "020275700003010000050000050b0c686f6c745f77696e7465727303020101000003", kind(Vector), refused(37, 4)),
    table("`Abs(up)`", "02027570000b034162730100000001", kind(Vector), refused(37, 1)),
    table("`ab(up)`", "02027570000b0261620100000001", kind(Vector), refused(37, 1)),
    table("`abs_(up)`", "02027570000b046162735f0100000001", kind(Vector), refused(37, 1)),
    table("`sum(up)` as a call", "02027570000b0373756d0100000001", kind(Vector), refused(37, 1)),
    table("`_()`: before the first", "0b015f00000100", kind(Scalar), refused(37, 0)),
    table("64 letters z: behind the last", "02027570000b40 7a*64; 0100000001", kind(Vector), refused(37, 1)),
    table("unknown, empty stack: 37 before 2", "0b0361627a0100000001", refused(2, 0), refused(37, 0)),
    table("unlike, empty stack: 38 before 2", "0b036162730100000101", refused(2, 0), refused(38, 0)),
    same("like, empty stack", "0b036162730100000001", refused(2, 0)),
    table("unlike result and two arguments: 38 before 26", "020275700002027570000b036162730100000102", refused(26, 2), refused(38, 2)),
    table("`abs`, unlimited", "02027570000b036162730100010001", kind(Vector), refused(38, 1)),
    table("`abs`, upper 1", "02027570000b03616273010002010001", kind(Vector), refused(38, 1)),
    table("`abs`, two kinds", "020275700002027570000b03616273020000000002", kind(Vector), refused(38, 2)),
    table("`abs()` of no kinds", "0b0361627300000000", kind(Vector), refused(38, 0)),
    same("`round(up)`", "02027570000b05726f756e6402000102010001", kind(Vector)),
    same("`round()`", "0b05726f756e6402000102010000", refused(27, 0)),
    same("`round(up, 1, 1)`", "02027570000000010000010b05726f756e6402000102010003", refused(28, 3)),
    table("`round(up, 1)`, upper 2", "02027570000000010b05726f756e6402000102020002", kind(Vector), refused(38, 2)),
    same("`label_join` of 5, four kinds", "02027570000101610101610101610101610b0a6c6162656c5f6a6f696e0400030303010005", kind(Vector)),
    table("`label_join` of 5, five kinds: it would act alike", "02027570000101610101610101610101610b0a6c6162656c5f6a6f696e050003030303010005", kind(Vector), refused(38, 5)),
    same("`histogram_quantiles` of 12", "0202757000010161 (000005)*10; 0b13686973746f6772616d5f7175616e74696c657304000301010209000c", kind(Vector)),
    same("`histogram_quantiles` of 13", "0202757000010161 (000005)*11; 0b13686973746f6772616d5f7175616e74696c657304000301010209000d", refused(28, 13)),
    same("`abs(1)`", "0000010b036162730100000001", refused(30, 1)),
    same("`ln(0)`: the literal exception", "0000000b026c6e0100000001", kind(Vector)),
    table("`ln(0)`, no kinds, unlimited", "0000000b026c6e00010001", kind(Vector), refused(38, 1)),
    table("`f(up)`, no kinds, unlimited", "02027570000b016600010001", refused(29, 1), refused(37, 1)),
    same("`pi(up)`: 26, not 29", "02027570000b02706900000101", refused(26, 1)),
    same("unknown, its count cut off", "0b0361627a01000000", refused(1, 0)),
    same("unknown, 17 arguments", "0b0361627a0100000011", refused(3, 0)),
    same("a call of `9a`", "0b0239610100000001", refused(4, 0)),
    same("`{}`, then unknown", "0200000b0361627a0100000001", refused(34, 0)),
    table("unknown, then byte 99", "02027570000b0361627a010000000163", refused(1, 2), refused(37, 1)),
    table("`sum(abz(up)) + \"a\"`", "02027570000b0361627a01000000010a1b0001010161090100", refused(22, 4), refused(37, 1)),
    same("257th record an unknown call", "0202757000 08*255; 0b0361627a0100000001", refused(3, 256)),
    table("256th record an unknown call", "0202757000 07*254; 0b0361627a0100000001", kind(Vector), refused(37, 255)),
    same("255 nested `abs`", "0202757000 (0b036162730100000001)*255;", kind(Vector)),
];
