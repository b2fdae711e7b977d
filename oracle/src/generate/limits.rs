//! Sizes at every limit of document 01 and one beyond, with the outcome that each must have.

use crate::answer::Outcome;
use crate::hex;
use crate::page::record::Kind;

/// A page of 100,000 bytes, far beyond the limit.
pub const OVERLONG: &str = "(0202757000)*20000;";

pub struct Limit {
    pub words: &'static str,
    pub page: Vec<u8>,
    pub expected: Outcome,
}

enum Expected {
    Passes(Kind),
    Refused(u8, usize),
}

use Expected::{Passes, Refused};

#[rustfmt::skip]
const ROWS: &[(&str, &str, Expected)] = &[
    ("a page of 8,192 bytes", "(023b 61*59; 00)*3; (023a 61*58; 00)*125; (090600)*127;", Passes(Kind::Vector)),
    ("a page of 8,193 bytes", "(023b 61*59; 00)*4; (023a 61*58; 00)*124; (090600)*127;", Refused(3, 0)),
    ("256 records", "0202757000 08*255;", Passes(Kind::Vector)),
    ("257 records", "0202757000 08*256;", Refused(3, 256)),
    ("a string of 255 bytes", "01 #255; 61*255;", Passes(Kind::String)),
    ("a string of 256 bytes", "01 #256; 61*256;", Refused(3, 0)),
    ("a string of no bytes", "0100", Passes(Kind::String)),
    ("a metric name of 255 bytes", "02 #255; 61*255; 00", Passes(Kind::Vector)),
    ("a metric name of 256 bytes", "02 #256; 61*256; 00", Refused(3, 0)),
    ("a matcher name of 255 bytes", "02016101 00 #255; 61*255; 0178", Passes(Kind::Vector)),
    ("a matcher name of 256 bytes", "02016101 00 #256; 61*256; 0178", Refused(3, 0)),
    ("a matcher value of 255 bytes", "02016101 00 0161 #255; 61*255;", Passes(Kind::Vector)),
    ("a matcher value of 256 bytes", "02016101 00 0161 #256; 61*256;", Refused(3, 0)),
    ("16 matchers", "020161 10 (0001610178)*16;", Passes(Kind::Vector)),
    ("17 matchers", "020161 11 (0001610178)*17;", Refused(3, 0)),
    ("16 matchers of 255 bytes", "020161 10 (00 0161 #255; 22*255;)*16;", Passes(Kind::Vector)),
    ("a label of 255 bytes", "0202757000 0a1b0101 #255; 61*255; 01", Passes(Kind::Vector)),
    ("a label of 256 bytes", "0202757000 0a1b0101 #256; 61*256; 01", Refused(3, 1)),
    ("16 labels in by", "0202757000 0a1b0110 (0161)*16; 01", Passes(Kind::Vector)),
    ("17 labels in by", "0202757000 0a1b0111 (0161)*17; 01", Refused(3, 1)),
    ("16 labels in without", "0202757000 0a1b0210 (0161)*16; 01", Passes(Kind::Vector)),
    ("17 labels in without", "0202757000 0a1b0211 (0161)*17; 01", Refused(3, 1)),
    ("16 labels in on and group", "(0202757000)*2; 09010100 0110 (0161)*16; 0110 (0162)*16; 0000", Passes(Kind::Vector)),
    ("17 labels in on", "(0202757000)*2; 09010100 0111 (0161)*17; 0000 00", Refused(3, 2)),
    ("16 labels in ignoring", "(0202757000)*2; 09010100 0210 (0161)*16; 00 0000", Passes(Kind::Vector)),
    ("17 labels in ignoring", "(0202757000)*2; 09010100 0211 (0161)*17; 00 0000", Refused(3, 2)),
    ("17 labels in group_left", "(0202757000)*2; 09010100 00 0111 (0161)*17; 0000", Refused(3, 2)),
    ("16 labels in group_right", "(0202757000)*2; 09010100 00 0210 (0161)*16; 0000", Passes(Kind::Vector)),
    ("17 labels in group_right", "(0202757000)*2; 09010100 00 0211 (0161)*17; 0000", Refused(3, 2)),
    ("16 kinds and 16 arguments", "(000001)*16; 0b0166 10 01*16; 00 01 10", Passes(Kind::Scalar)),
    ("17 kinds", "(000001)*16; 0b0166 11 01*17; 00 01 10", Refused(3, 16)),
    ("17 arguments", "(000001)*17; 0b0166 01 01 01 01 11", Refused(3, 17)),
    ("16 arguments of one kind", "(000001)*16; 0b0166 01 01 01 01 10", Passes(Kind::Scalar)),
    ("16 arguments of an aggregate", "(0202757000)*16; 0a1b0010", Refused(15, 16)),
    ("17 arguments of an aggregate", "(0202757000)*17; 0a1b0011", Refused(3, 17)),
    ("a function name of 64 bytes", "0b #64; 66*64; 00 00 00 00", Passes(Kind::Vector)),
    ("a function name of 65 bytes", "0b #65; 66*65; 00 00 00 00", Refused(3, 0)),
    ("upper 16", "0b0166 00 0210 00 00", Passes(Kind::Vector)),
    ("upper 17", "0b0166 00 0211 00 00", Refused(3, 0)),
    ("@ 10^15", "0202757000 0502 #1000000000000000;", Passes(Kind::Vector)),
    ("@ 10^15 + 1", "0202757000 0502 #1000000000000001;", Refused(3, 1)),
    ("@ minus 10^15", "0202757000 0503 #1000000000000000;", Passes(Kind::Vector)),
    ("@ minus 10^15 - 1", "0202757000 0503 #1000000000000001;", Refused(3, 1)),
    ("@ minus 1", "0202757000 0503 01", Passes(Kind::Vector)),
    ("@ minus 0", "0202757000 0503 00", Refused(1, 1)),
    ("number 2^53", "0000 #9007199254740992;", Passes(Kind::Scalar)),
    ("number 2^53 + 1", "0000 #9007199254740993;", Refused(1, 0)),
    ("negative 2^53", "0001 #9007199254740992;", Passes(Kind::Scalar)),
    ("negative 2^53 + 1", "0001 #9007199254740993;", Refused(1, 0)),
    ("range 2^53", "0202757000 03 #9007199254740992;", Passes(Kind::Matrix)),
    ("range 2^53 + 1", "0202757000 03 #9007199254740993;", Refused(1, 1)),
    ("offset 2^53", "0202757000 0601 #9007199254740992;", Passes(Kind::Vector)),
    ("offset 2^53 + 1", "0202757000 0601 #9007199254740993;", Refused(1, 1)),
    ("fills 2^53", "(0202757000)*2; 090101000000 0100 #9007199254740992; 0101 #9007199254740992;", Passes(Kind::Vector)),
    ("fill 2^53 + 1", "(0202757000)*2; 090101000000 0100 #9007199254740993; 00", Refused(1, 2)),
    ("the last character of one byte", "01017f", Passes(Kind::String)),
    ("its byte and one more, no character", "010180", Refused(4, 0)),
];

pub fn limits() -> impl Iterator<Item = Limit> {
    ROWS.iter().map(|(words, page, expected)| Limit {
        words,
        page: hex::bytes(page),
        expected: match *expected {
            Passes(kind) => Outcome::Accepted(kind),
            Refused(number, record) => Outcome::Refused { number, record },
        },
    })
}
