//! What is tried: every character, every short text, characters with every fault at every place among others and mixed
//! with letters, and one byte of several kinds at every place of every length.

use super::TextTest;
use crate::memory::{End, Guarded};
use crate::trap;
use oracle::random::Random;

const STARTS: usize = 16;
const LENGTHS: usize = 264;
const BYTES: [u8; 7] = [0x00, 0x7f, 0x80, 0x81, 0xbf, 0xc0, 0xff];

/// What stands around a text, and must not be seen: a byte that no text has, or a tail that would complete a character.
const NO_BYTE: u8 = 0xff;
const TAIL: u8 = 0xa9;

/// The beginnings of characters that a text may end in.
const CUT: [&[u8]; 6] = [
    b"\xc3",
    b"\xe5",
    b"\xe5\x8c",
    b"\xf0",
    b"\xf0\x9f",
    b"\xf0\x9f\x98",
];

/// Characters at the edges of the grammar's rows; then what is none: overlong forms, surrogates, what is above
/// U+10FFFF, lone tails, a tail too many.
#[rustfmt::skip]
const CHARACTERS: [&[u8]; 31] = [
    b"\xc2\x80", b"\xc3\xa9", b"\xdf\xbf", b"\xe0\xa0\x80", b"\xe5\x8c\x97", b"\xec\xbf\xbf", b"\xed\x9f\xbf",
    b"\xee\x80\x80", b"\xef\xbf\xbf", b"\xf0\x90\x80\x80", b"\xf0\x9f\x98\x80", b"\xf3\xbf\xbf\xbf",
    b"\xf4\x8f\xbf\xbf", b"\xc0\x80", b"\xc1\xbf", b"\xe0\x80\x80", b"\xe0\x9f\xbf", b"\xed\xa0\x80",
    b"\xed\xbf\xbf", b"\xf0\x80\x80\x80", b"\xf0\x8f\xbf\xbf", b"\xf4\x90\x80\x80", b"\xf4\xbf\xbf\xbf",
    b"\xf5\x80\x80\x80", b"\xf8\x80\x80\x80", b"\xfe", b"\xff", b"\x80", b"\xbf", b"\xc3\xa9\xa9",
    b"\xe5\x8c\x97\x80",
];

/// How many of these are characters.
const GOOD: usize = 13;

/// Texts that are mixed from a seed.
const MIXED: u64 = 500_000;
const SEED: u64 = 10;

/// The bytes that stand third and fourth after every two bytes.
const TAILS: [u8; 10] = [0x00, 0x7f, 0x80, 0x8f, 0x90, 0x9f, 0xa0, 0xbf, 0xc0, 0xff];

/// What stands before and after a character, and the starts that are tried with it.
const AROUND: [(&str, &[usize]); 5] = [
    ("v", &[0, 1, 5, 8]),
    ("é", &[0, 3]),
    ("北", &[0, 7]),
    ("😀", &[0, 6]),
    ("Zürich ", &[0, 1, 2]),
];

/// How many texts of each sort were tried without a difference.
pub type Tally = Vec<(&'static str, u64)>;

/// What was tried, or the first difference.
pub fn compare(test: &TextTest) -> Result<Tally, String> {
    trap::set();
    Ok(vec![
        ("every scalar value", scalar_values(test)?),
        ("every two bytes and chosen tails", of_four(test)?),
        ("all of one, two and three bytes", short(test)?),
        ("a character at every place", one_character_apart(test)?),
        ("one byte at every place", one_byte_apart(test)?),
        ("letters and characters mixed", mixed(test)?),
        ("against guard pages", against_guards(test)?),
    ])
}

/// Letters at every start and of every length, as they are and with each byte at each place.
fn one_byte_apart(test: &TextTest) -> Result<u64, String> {
    let mut cases = 0;
    let mut memory = [NO_BYTE; STARTS + LENGTHS + 8];
    for start in 0..=STARTS {
        for length in 0..=LENGTHS {
            let text = &mut memory[start..start + length];
            text.fill(b'v');
            test.judge(text, 0)?;
            for place in 0..length {
                for byte in BYTES {
                    text[place] = byte;
                    test.judge(text, place)?;
                }
                text[place] = b'v';
            }
            cases += 1 + (length * BYTES.len()) as u64;
            text.fill(NO_BYTE);
        }
    }
    Ok(cases)
}

fn short(test: &TextTest) -> Result<u64, String> {
    let mut cases = 0;
    let mut memory = [TAIL; 8];
    for length in 1..=3 {
        let count = 1u32 << (8 * length);
        for number in 0..count {
            let text = &mut memory[..length];
            text.copy_from_slice(&number.to_be_bytes()[4 - length..]);
            test.judge_text(text)?;
        }
        cases += u64::from(count);
    }
    Ok(cases)
}

fn of_four(test: &TextTest) -> Result<u64, String> {
    let mut memory = [TAIL; 8];
    for both in 0..=u16::MAX {
        memory[..2].copy_from_slice(&both.to_be_bytes());
        for third in TAILS {
            for fourth in TAILS {
                memory[2..4].copy_from_slice(&[third, fourth]);
                test.judge_text(&memory[..4])?;
            }
        }
    }
    Ok((1 << 16) * (TAILS.len() * TAILS.len()) as u64)
}

fn scalar_values(test: &TextTest) -> Result<u64, String> {
    let mut cases = 0;
    let mut memory = [TAIL; 8];
    for character in '\0'..=char::MAX {
        let text = character.encode_utf8(&mut memory);
        test.judge(text.as_bytes(), 0)?;
        cases += 1;
    }
    Ok(cases)
}

/// Every character, every fault and every beginning of a character, at each place of texts of each length. A tail
/// stands after each text, which would complete a character that the text's end cuts short.
fn one_character_apart(test: &TextTest) -> Result<u64, String> {
    let mut cases = 0;
    for (around, starts) in AROUND {
        let most = LENGTHS / around.len();
        for character in CHARACTERS.iter().chain(&CUT) {
            for count in 0..=most {
                for start in starts {
                    cases += at_every_place(test, around, count, character, *start)?;
                }
            }
        }
    }
    Ok(cases)
}

/// So many times what stands around, and the character before, between and after them.
fn at_every_place(
    test: &TextTest,
    around: &str,
    count: usize,
    character: &[u8],
    start: usize,
) -> Result<u64, String> {
    let length = count * around.len() + character.len();
    let mut memory = [TAIL; STARTS + LENGTHS + 16];
    let text = &mut memory[start..start + length];
    let all = around.repeat(count);
    for place in 0..=count {
        let (before, after) = all.as_bytes().split_at(place * around.len());
        text[..before.len()].copy_from_slice(before);
        text[before.len()..length - after.len()].copy_from_slice(character);
        text[length - after.len()..].copy_from_slice(after);
        test.judge_text(text)?;
    }
    Ok(1 + count as u64)
}

/// Runs of letters and characters in turn, of any length together; in half of the texts one in twenty may be none.
fn mixed(test: &TextTest) -> Result<u64, String> {
    let mut random = Random::new(SEED);
    for _ in 0..MIXED {
        let is_spoiled = random.chance(50);
        let length = random.between(0, LENGTHS);
        let mut text = Vec::new();
        while text.len() < length {
            text.resize(text.len() + random.below(20), b'v');
            let any = match is_spoiled && random.chance(5) {
                true => &CHARACTERS[..],
                false => &CHARACTERS[..GOOD],
            };
            text.extend_from_slice(random.pick::<&[u8]>(any));
        }
        test.judge_text(&text)?;
    }
    Ok(MIXED)
}

/// Texts of every length that touch a guard page, so that a byte read outside them is a fault of the machine; whole
/// ones, and such as end inside a character.
fn against_guards(test: &TextTest) -> Result<u64, String> {
    let mut memory = Guarded::new(4096);
    let mut cases = 0;
    for end in End::BOTH {
        for length in 0..=LENGTHS {
            for ending in CUT
                .iter()
                .filter(|cut| cut.len() <= length)
                .chain([&&b""[..]])
            {
                let letters = vec![b'v'; length - ending.len()];
                memory.put(end, &[&letters, *ending].concat());
                test.judge(memory.bytes(end, length), 0)?;
                cases += 1;
            }
        }
    }
    Ok(cases)
}
