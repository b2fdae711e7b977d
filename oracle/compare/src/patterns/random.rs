//! Patterns at random, of up to 255 bytes: covered ones, such as were damaged or nearly are covered, and any bytes.

use super::{in_threads, Asker, Count};
use crate::library::Library;
use oracle::generate::damaged;
use oracle::generate::patterns::near_misses::near_miss;
use oracle::generate::patterns::spelling::covered;
use oracle::random::Random;
use oracle::uncovered::Uncovered;

/// Patterns of a block. A block has a seed of its own.
const BLOCK: u64 = 1000;

/// Of so many patterns one stands in pages too.
const IN_PAGES: u64 = 20;

const MOST_BYTES: usize = 255;

pub fn compare(library: Library, count: u64) -> Result<Count, String> {
    in_threads(library, count.div_ceil(BLOCK), |asker, block| {
        let random = &mut Random::new(block);
        let patterns = count.min((block + 1) * BLOCK) - block * BLOCK;
        (0..patterns).try_for_each(|place| one(asker, &pattern(random), place))
    })
}

fn one(asker: &mut Asker, pattern: &[u8], place: u64) -> Result<(), String> {
    asker.compare(pattern)?;
    match place % IN_PAGES {
        0 => asker.compare_pages(pattern),
        _ => Ok(()),
    }
}

/// Mostly short: the Rust takes a millisecond to compile a long one.
fn length(random: &mut Random) -> usize {
    match random.below(40) {
        0 => MOST_BYTES,
        1..=5 => 60,
        _ => 20,
    }
}

fn pattern(random: &mut Random) -> Vec<u8> {
    let most = length(random);
    let mut pattern = match random.below(10) {
        0..=3 => covered(random, most).into_bytes(),
        4 | 5 => {
            let whole = covered(random, most);
            damaged(random, whole.as_bytes())
        }
        6 | 7 => {
            let how = *random.pick(&Uncovered::ALL);
            near_miss(random, how, most).into_bytes()
        }
        _ => bytes(random, most),
    };
    pattern.truncate(MOST_BYTES);
    pattern
}

/// Signs, letters and signs, ASCII, or any bytes.
fn bytes(random: &mut Random, most: usize) -> Vec<u8> {
    let length = random.below(most + 1);
    let sort = random.below(4);
    let byte = |random: &mut Random| match sort {
        0 => *random.pick(b"|()*+?a"),
        1 => *random.pick(b"abcXYZ019_-..|()*?"),
        2 => random.byte() & 0x7f,
        _ => random.byte(),
    };
    (0..length).map(|_| byte(random)).collect()
}
