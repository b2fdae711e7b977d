//! Nests of every depth that fill 255 bytes, whole and with a bracket too few or too many; runs of 254 to 300 bytes,
//! and far longer ones.

use super::{Asker, Count};
use oracle::generate::patterns::full;

const FULL: usize = 255;

/// What stands before and after at each level.
#[rustfmt::skip]
const LEVELS: [(&str, &str); 12] = [
    ("(", ")"), ("(", ")*"), ("(", ")+"), ("(", ")?"), ("(a|", ")"), ("(|", ")"), ("(", "|a)"), ("(a*", ")"),
    ("(a", ")*"), ("(|a", ")*"), ("(", ")**"), ("(a)(", ")"),
];

/// What fills the middle.
const MIDDLES: [&str; 4] = ["a", "a*", "|", "()"];

/// What runs are made of.
const UNITS: [&str; 11] = ["a", ".", "|", "(", ")", "*", "()", "a*", "a|", "(a)", "é"];

/// Lengths above 255 that a byte or two bytes would cut to a good one.
const FAR: [usize; 6] = [511, 512, 4096, 65_536, 65_791, 131_072];

pub fn compare(asker: &mut Asker) -> Result<Count, String> {
    for (_, pattern) in full::all() {
        asker.compare_read_only(pattern.as_bytes())?;
        asker.compare_pages(pattern.as_bytes())?;
    }
    for (open, close) in LEVELS {
        for depth in 0..=FULL / (open.len() + close.len()) {
            of_depth(asker, open, close, depth)?;
        }
    }
    for unit in UNITS {
        for length in (254..=300).chain(FAR) {
            let run: Vec<u8> = unit.bytes().cycle().take(length).collect();
            asker.compare_read_only(&run)?;
        }
    }
    Ok(asker.count)
}

/// Balanced, and with one bracket too few or too many on either side.
fn of_depth(asker: &mut Asker, open: &str, close: &str, depth: usize) -> Result<(), String> {
    let [opened, closed] = [open, close].map(|part| part.repeat(depth));
    let room = FULL - opened.len() - closed.len();
    for middle in MIDDLES {
        let filled = middle.repeat(room / middle.len());
        let shorter = middle.repeat(room.saturating_sub(1) / middle.len());
        asker.compare(
            [&opened, &filled, &closed]
                .map(String::as_bytes)
                .concat()
                .as_slice(),
        )?;
        for (before, after) in [("(", ""), ("", ")"), ("", "("), (")", "")] {
            let pattern = [before, &opened, &shorter, &closed, after].concat();
            asker.compare(pattern.as_bytes())?;
        }
    }
    asker.compare((opened + &closed).as_bytes())
}
