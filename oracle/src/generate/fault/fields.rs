//! Faulty fields: refusals 1, 3 and 4, by the place of the field in its record.

use super::super::Generator;
use super::Fault;
use crate::hex;
use crate::page::record::{Kind, Record};
use crate::page::write;

/// Bad numbers and codes: kinds, forms, flags, numbers above 2^53 or not in their shortest form.
#[rustfmt::skip]
const BAD: &[&str] = &[
    "0c", "63", "7f", "8001", "8000", "8200", "#9007199254740993;", "ffffffffffffffffff01", "ffffffffffffff7f",
    "0007", "00008000", "00018100", "0000 #9007199254740993;", "0001 #9007199254740993;", "018000", "01810061",
    "01 #9007199254740993;", "02810061", "020161018100", "0201610104", "020161018000", "020161010201610161 02",
    "0201610103016101618100", "0201610100 8000", "020161010001618000", "038000", "03 #9007199254740993;", "048000",
    "040102", "04010181 00", "0401 01 #9007199254740993;", "0504", "0503 00", "05028000", "0502 #9007199254740993;",
    "0503 #9007199254740993;", "058100", "0602", "06008100", "0601 #9007199254740993;", "8700", "0900", "091f",
    "098100", "090102", "09010102", "0901010003", "090101000004", "09010100000002", "0901010000000107",
    "09010100000000 02", "0901010000000100 8000", "090101000000 00 0107", "0901010001 8100", "0901010000018100",
    "0901010002018100", "0a00", "0a1f", "0a1b03", "0a1b008100", "0a1b018000", "0b810066", "0b01668100", "0b01660104",
    "0b0166018000", "0b01660003", "0b0166000200", "0b016600028100", "0b01660002 #9007199254740993;", "0b0166000004",
    "0b016600000081 00", "0b01660000 00 #9007199254740993;",
];

/// One more than document 01 allows, or far more.
#[rustfmt::skip]
const BEYOND: &[&str] = &[
    "01 #256; 61*256;", "01 #300; ff*300;", "02 #256; 61*256;", "02 #256; 39*256;", "020011", "02016111",
    "020161 #9007199254740992;", "0201610100 #256; 61*256;", "02016101000161 #256; 61*256;",
    "02016101020161 #256; 2e*256;", "0502 #1000000000000001;", "0503 #1000000000000001;", "0502 #9007199254740992;",
    "0503 #9007199254740992;", "090101000111", "090101000211", "09010100000111", "09010100000211",
    "0901010001 #9007199254740992;", "090101000101 #256; 61*256;", "09010100000101 #256; 61*256;", "0a1b0111",
    "0a1b0211", "0a1b0011", "0a1b00 #300;", "0a1b0101 #256; 61*256;", "0b #65; 66*65;", "0b #65; 3a*65;",
    "0b #255; 66*255;", "0b016611", "0b0166 #9007199254740992;", "0b0166000211", "0b01660002 #9007199254740992;",
    "0b016600000011", "0b016600000080 01",
];

/// Texts that are ill-formed by one byte; names that are none.
#[rustfmt::skip]
const NOT_ALLOWED: &[&str] = &[
    "010180", "010261ff", "0101c3a9", "01ff01 61*254; 80", "02013900", "0202396100", "02012d00", "02018000",
    "0203612d6200", "0201200061", "02026100", "0201610100018000", "02016101000161 0180", "0201610102 0161 01ff",
    "020161010301ff", "0901010001010180", "09010100020101ff", "09010100000101 0180", "0901010000020201610180",
    "0a1b01010180", "0a1b0202016101ff", "0b00", "0b013a", "0b0139", "0b02662d", "0b01ff", "0b40 66*63; 3a",
    "0b0366 20 67", "0b0100",
];

pub(super) fn fault(generator: &mut Generator, number: u8) -> Fault {
    if number == 1 && generator.random.chance(40) {
        return cut_short(generator);
    }
    let list = match number {
        1 => BAD,
        3 => BEYOND,
        _ => NOT_ALLOWED,
    };
    let notation = generator.random.pick::<&str>(list);
    Fault {
        before: Vec::new(),
        record: hex::bytes(notation),
        is_last: false,
    }
}

/// A good record of at least two bytes, with some of its last bytes missing.
fn cut_short(generator: &mut Generator) -> Fault {
    loop {
        let kind = *generator.random.pick(&Kind::ALL);
        let size = generator.random.between(1, 4);
        let record = generator.expression(kind, size).pop();
        let mut bytes = Vec::new();
        write::record(&mut bytes, record.as_ref().unwrap_or(&Record::Unary));
        if bytes.len() > 1 {
            bytes.truncate(generator.random.between(1, bytes.len() - 1));
            return Fault {
                before: Vec::new(),
                record: bytes,
                is_last: true,
            };
        }
    }
}
