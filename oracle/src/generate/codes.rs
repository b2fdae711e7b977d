//! Every code once under a binary and under aggregates of one and two arguments, every kind of operand on each side.

use crate::hex;

const OPERANDS: [&str; 4] = ["0202757000", "000001", "02027570000301", "010161"];

pub fn pages() -> impl Iterator<Item = Vec<u8>> {
    (1..=30).flat_map(|code| {
        let notations = [
            format!("(0202757000)*2; 09{code:02x}00"),
            format!("(000001)*2; 09{code:02x}010100000000"),
            format!("0202757000 0a{code:02x}0001"),
            format!("000001 0202757000 0a{code:02x}0002"),
            format!("010161 0202757000 0a{code:02x}0002"),
        ];
        notations.map(|notation| hex::bytes(&notation))
    })
}

/// Each operator group between each pair of kinds, and each operand under the records that take one.
pub fn kinds() -> impl Iterator<Item = Vec<u8>> {
    let pairs = OPERANDS
        .into_iter()
        .flat_map(|left| OPERANDS.map(|right| format!("{left} {right}")));
    let binaries = pairs.flat_map(|pair| {
        [
            "090100",
            "090800",
            "090801010000 0000",
            "090600",
            "0901010001 01 0178 00 0000",
        ]
        .map(|record| hex::bytes(&format!("{pair} {record}")))
    });
    let singles = OPERANDS.into_iter().flat_map(|operand| {
        ["07", "0807", "040100", "0501", "060001", "0301", "0a1b0001"]
            .map(|record| hex::bytes(&format!("{operand} {record}")))
    });
    binaries.chain(singles)
}
