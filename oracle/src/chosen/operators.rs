//! The pages of document 02, No. 8: document 01's check beside the one that follows the operators document.

use super::{kind, refused, row, Expected, Row};
use crate::answer::Outcome;
use crate::page::record::Kind::Vector;

const fn limit(words: &'static str, page: &'static str, check: Outcome, operators: Outcome) -> Row {
    row(words, page, Expected::ChecksOperators { check, operators })
}

const fn same(words: &'static str, page: &'static str, both: Outcome) -> Row {
    limit(words, page, both, both)
}

#[rustfmt::skip]
pub const ROWS: &[Row] = &[
    same("`limitk(1, up)`", "00000102027570000a1d0002", kind(Vector)),
    limit("`limitk(\"a\", up)`", "01016102027570000a1d0002", kind(Vector), refused(42, 2)),
    limit("`limit_ratio(\"a\", up)`", "01016102027570000a1e0002", kind(Vector), refused(42, 2)),
    limit("`limitk(up, up)`", "020275700002027570000a1d0002", kind(Vector), refused(42, 2)),
    limit("`limitk(up[1ms], up)`", "0202757000030102027570000a1d0002", kind(Vector), refused(42, 3)),
    same("`limitk((1), up)`", "0000010802027570000a1d0002", kind(Vector)),
    same("`limitk(1 + 2, up)`", "00000100000209010002027570000a1d0002", kind(Vector)),
    same("`limitk(scalar(up), up)`", "02027570000b067363616c6172010000010102027570000a1d0002", kind(Vector)),
    same("`limitk(-1, up)`", "0000010702027570000a1d0002", kind(Vector)),
    same("`limit_ratio(NaN, up)`", "000202027570000a1e0002", kind(Vector)),
    limit("`limitk by (x) (\"a\", up)`", "01016102027570000a1d0101017802", kind(Vector), refused(42, 2)),
    same("`limitk(\"a\", 1)`: 25 before 42", "0101610000010a1d0002", refused(25, 2)),
    same("`limitk(1, 1)`", "0000010000010a1d0002", refused(25, 2)),
    same("`limitk(up)`", "02027570000a1d0001", refused(15, 1)),
    same("`limitk()`", "0a1d0000", refused(14, 0)),
    same("`limitk(\"a\", up, up)`", "010161020275700002027570000a1d0003", refused(15, 3)),
    same("an operand missing", "0101610a1d0002", refused(2, 1)),
    same("`topk(\"a\", up)`", "01016102027570000a1c0002", refused(25, 2)),
    same("`count_values(1, up)`", "00000102027570000a140002", refused(25, 2)),
    limit("`limitk(1, limitk(\"a\", up))`", "00000101016102027570000a1d00020a1d0002", kind(Vector), refused(42, 3)),
    limit("`limitk(\"a\", limitk(\"b\", up))`: the inner record is first", "01016101016202027570000a1d00020a1d0002", kind(Vector), refused(42, 3)),
    limit("`limitk(\"a\", up) + \"b\"`", "01016102027570000a1d0002010162090100", refused(22, 4), refused(42, 2)),
    same("`\"b\" + 1`, then `limitk(\"a\", up)`", "01016200000109010001016102027570000a1d0002", refused(22, 2)),
    limit("`limitk(\"a\", up)`, then byte 99", "01016102027570000a1d000263", refused(1, 3), refused(42, 2)),
    limit("`limitk(\"a\", up)`, then `up`", "01016102027570000a1d00020202757000", refused(2, 4), refused(42, 2)),
    limit("`limitk(ln(0), up)`: the call gives a vector", "0000000b026c6e010000000102027570000a1d0002", kind(Vector), refused(42, 3)),
    limit("`limitk(\"a\", ln(0))`", "0101610000000b026c6e01000000010a1d0002", kind(Vector), refused(42, 3)),
    same("code 29 as a binary operator", "02027570000202757000091d00", refused(16, 2)),
    limit("42 at record 255 of 256", "010161 0202757000 07*253; 0a1d0002", kind(Vector), refused(42, 255)),
    same("a limitk as the 257th record", "010161 0202757000 07*254; 0a1d0002", refused(3, 256)),
    same("127 nested `limitk(1, ..)`", "(000001)*127; 0202757000 (0a1d0002)*127;", kind(Vector)),
];
