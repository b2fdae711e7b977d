//! Every pattern of a few of the eight signs: a letter stands for all that are items by themselves.

use super::{in_threads, Asker, Count, Sizes};
use crate::library::Library;

const SIGNS: [u8; 8] = *b"a.|()*+?";

/// Patterns of a block.
const BLOCK: u64 = 4096;

/// How many patterns have fewer signs than so many.
pub fn signs_below(signs: usize) -> u64 {
    (0..signs).map(|length| 1 << (3 * length)).sum()
}

/// So many patterns, the shorter ones first.
pub fn every(patterns: u64) -> impl Iterator<Item = Vec<u8>> {
    (0..patterns).map(pattern)
}

/// The pattern with this number.
fn pattern(number: u64) -> Vec<u8> {
    let mut length = 0;
    while number >= signs_below(length + 1) {
        length += 1;
    }
    let within = number - signs_below(length);
    (0..length)
        .map(|place| SIGNS[(within >> (3 * place)) as usize & 7])
        .collect()
}

pub fn compare(library: Library, sizes: Sizes) -> Result<Count, String> {
    let patterns = signs_below(sizes.signs + 1);
    in_threads(library, patterns.div_ceil(BLOCK), |asker, block| {
        let numbers = block * BLOCK..patterns.min((block + 1) * BLOCK);
        for pattern in numbers.map(pattern) {
            one(asker, &pattern, sizes)?;
        }
        Ok(())
    })
}

fn one(asker: &mut Asker, pattern: &[u8], sizes: Sizes) -> Result<(), String> {
    asker.compare(pattern)?;
    match pattern.len() <= sizes.signs_in_pages {
        true => asker.compare_pages(pattern),
        false => Ok(()),
    }
}

#[cfg(test)]
mod tests {
    use super::{every, signs_below};
    use std::collections::HashSet;

    #[test]
    fn every_pattern_is_made_once() {
        let count = signs_below(5);
        assert_eq!(count, 1 + 8 + 64 + 512 + 4096);
        let made: HashSet<_> = every(count).collect();
        assert_eq!(made.len() as u64, count);
        assert!(made.iter().all(|pattern| pattern.len() <= 4));
        assert!(made.contains(b"(a)*".as_slice()) && made.contains(b"".as_slice()));
    }
}
