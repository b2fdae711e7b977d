//! The pages of document 02, No. 7: right and wrong flags, and what comes before 41 and after it.

use super::{row, Expected::*, Row};
use crate::page::record::Kind;

#[rustfmt::skip]
pub const ROWS: &[Row] = &[
    row("up{a=~\"x\"}, flag 0", "0202757001020161017800", Is(Kind::Vector, "up{a=~\"x\"}")),
    row("the same, flag 1", "0202757001020161017801", Refused(41, 0)),
    row("the same, flag 1, the program", "0202757001020161017801", Writes("refused 41 at 0\n")),
    row("up{a=~\"x*\"}, flag 0", "020275700102016102782a00", Refused(41, 0)),
    row("up{a!~\"x*\"}, flag 1", "020275700103016102782a01", Is(Kind::Vector, "up{a!~\"x*\"}")),
    row("up{a!~\"x*\"}, flag 1, copied", "020275700103016102782a01", Copies("020275700103016102782a01")),
    row("up{a!~\"x*\"}, flag 0", "020275700103016102782a00", Refused(41, 0)),
    row("up{a!~\"x\"}, flag 1", "0202757001030161017801", Refused(41, 0)),
    row("the empty pattern, flag 0", "02027570010201610000", Refused(41, 0)),
    row("the empty pattern, flag 1", "02027570010201610001", Is(Kind::Vector, "up{a=~\"\"}")),
    row("{a=~\"\"}, flag 1", "0200010201610001", Refused(34, 0)),
    row("{a=~\"\"}, flag 0: 41, not accepted", "0200010201610000", Refused(41, 0)),
    row("{a=~\"x\"}, flag 1: 41 before 34", "020001020161017801", Refused(41, 0)),
    row("{a!~\"x\"}, flag 1: 41, not accepted", "020001030161017801", Refused(41, 0)),
    row("name and `__name__`, a wrong flag behind: 41 before 33", "020275700200085f5f6e616d655f5f0161020162017801", Refused(41, 0)),
    row("a wrong flag, name and `__name__` behind: 41 before 33", "020275700202016201780100085f5f6e616d655f5f0161", Refused(41, 0)),
    row("`__name__=~\"x\"` with a wrong flag", "020275700102085f5f6e616d655f5f017801", Refused(41, 0)),
    row("wrong flag, then a byte 255 in the next matcher: 4", "02027570020201610178010001ff00", Refused(4, 0)),
    row("wrong flag, then the page ends: 1", "020275700202016101780100016105", Refused(1, 0)),
    row("wrong flag, then a matcher of form 4: 1", "0202757002 020161017801 0401610162", Refused(1, 0)),
    row("wrong flag, then a flag 2: 1", "0202757002 020161017801 020161017802", Refused(1, 0)),
    row("wrong flag, then a name of 256 bytes: 3", "0202757002 020161017801 00 #256; 61*256; 00", Refused(3, 0)),
    row("wrong flag, then a value of 256 bytes: 3", "0202757002 020161017801 000161 #256; 61*256;", Refused(3, 0)),
    row("a value that is no UTF-8, then a wrong flag: 4", "0202757002 00016101ff 020161017801", Refused(4, 0)),
    row("17 matchers, a wrong flag among them: 3", "0202757011 (020161017801)*17;", Refused(3, 0)),
    row("flag 2", "0202757001020161017802", Refused(1, 0)),
    row("the second of two flags wrong, (y|z)?", "02027570020201610178000301620628797c7a293f00", Refused(41, 0)),
    row("the last of sixteen flags wrong", "0202757010 (020161017800)*15; 030161017801", Refused(41, 0)),
    row("sixteen wrong flags", "0202757010 (020161017801)*16;", Refused(41, 0)),
    row("wrong flag in record 0, byte 99 behind", "020275700102016101780163", Refused(41, 0)),
    row("34 in record 0, wrong flag in record 1", "0200000202757001020161017801", Refused(34, 0)),
    row("missing operands in record 0, wrong flag in record 1: 2", "07 0202757001020161017801", Refused(2, 0)),
    row("wrong flag in record 0, missing operands in record 1: 41", "0202757001020161017801 090100", Refused(41, 0)),
    row("wrong flag in record 1, two expressions in the end: 41", "0202757000 0202757001020161017801", Refused(41, 1)),
    row("wrong flag as the last of 256 records", "0202757000 08*254; 0202757001020161017801", Refused(41, 255)),
    row("wrong flag as record 256, which is not read: 3", "0202757000 08*255; 0202757001020161017801", Refused(3, 256)),
    row("wrong flag on a page of 8,193 bytes: 3", "0202757001020161017801 00*8182;", Refused(3, 0)),
    row("up{a=\"x*\"}: no flag", "020275700100016102782a", Is(Kind::Vector, "up{a=\"x*\"}")),
    row("[x], flag 0", "0202757001020161035b785d00", Is(Kind::Vector, "up{a=~\"[x]\"}")),
];

/// Pages whose flag is believed, though the Rust would say otherwise or nothing.
#[rustfmt::skip]
pub const OUTSIDE: &[Row] = &[
    row("[x], flag 1", "0202757001020161035b785d01", Is(Kind::Vector, "up{a=~\"[x]\"}")),
    row("a**, flag 0", "020275700102016103612a2a00", Is(Kind::Vector, "up{a=~\"a**\"}")),
    row("(a, flag 1", "020275700102016102286101", Is(Kind::Vector, "up{a=~\"(a\"}")),
    row("a)|(b, flag 1", "02027570010201610561297c286201", Is(Kind::Vector, "up{a=~\"a)|(b\"}")),
    row("{a=~\"[x]\"}, flag 1", "020001020161035b785d01", Refused(34, 0)),
];
