//! The bench examples of document 01.

use super::{row, Expected::*, Row};
use crate::page::record::Kind;

#[rustfmt::skip]
pub const ROWS: &[Row] = &[
    row("up", "0202757000", Is(Kind::Vector, "up")),
    row("-5", "00000507", Is(Kind::Scalar, "-5")),
    row("-5, copied", "00000507", Copies("000105")),
    row("up and up, copied", "(0202757000)*2; 090600", Copies("(0202757000)*2; 0906010000030000")),
    row("empty page, the program", "", Writes("refused 2 at 0\n")),
    row("ln(0) passes", "000000 0b026c6e0100000001", Is(Kind::Vector, "ln(0)")),
    row("ln((0)) is 30", "000000 08 0b026c6e0100000001", Refused(30, 2)),
    row("exp(0) is 30", "000000 0b036578700100000001", Refused(30, 1)),
    row("365 days", "0202757000 03 #31536000000;", Prints("up[1y]")),
    row("372 days", "0202757000 03 #32140800000;", Prints("up[372d]")),
    row("371 days", "0202757000 03 #32054400000;", Prints("up[53w]")),
    row("1,500 ms", "0202757000 03 #1500;", Prints("up[1s500ms]")),
    row("fills NaN and NaN", "(0202757000)*2; 090101000000 0102 0102", Prints("up + fill_left (NaN) fill_right (NaN) up")),
    row("fills 0 and minus zero", "(0202757000)*2; 090101000000 010000 010100", Prints("up + fill (-0) up")),
    row("both fills Inf", "(0202757000)*2; 090101000000 0103 0103", Prints("up + fill (inf) up")),
    row("names of 48 and 49 bytes added: one line", "0230 61*48; 00 0231 62*49; 00 090100", Splits("{a*48} + {b*49}")),
    row("names of 49 and 49 bytes added: three lines", "0231 61*49; 00 0231 62*49; 00 090100", Splits("  {a*49}\n+\n  {b*49}")),
    row("offset minus 0", "0202757000 060100", Prints("up offset -0s")),
];
