//! Lists of bytes, as the definitions write them.

use oracle::hex;

/// Bytes in hexadecimal, names of lists and a repeated byte, joined; what a name stands for is told by `named`.
pub fn list(words: &str, named: fn(&str) -> Vec<u8>) -> Vec<u8> {
    let part = |part: &str| {
        let part = part.trim_matches([' ', '(', ')']);
        match part.split_once(' ') {
            Some(("hex", digits)) => hex::bytes(digits.trim_matches('"')),
            Some(("replicate", words)) => repeated(words),
            _ if part == "[]" => Vec::new(),
            _ => named(part),
        }
    };
    words.split("++").flat_map(part).collect()
}

/// A byte that is repeated: `256 0x08`.
fn repeated(words: &str) -> Vec<u8> {
    let (times, byte) = words.split_once(" 0x").expect("how often, and the byte");
    let byte = u8::from_str_radix(byte, 16).expect("hexadecimal digits");
    vec![byte; times.parse().expect("how often")]
}
