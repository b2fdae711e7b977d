//! Damaged copies of pages: bytes cut off, flipped, set, inserted, deleted, or a stretch repeated.

use crate::random::Random;

pub fn damaged(random: &mut Random, page: &[u8]) -> Vec<u8> {
    let mut damaged = page.to_vec();
    for _ in 0..random.between(1, 3) {
        damage(random, &mut damaged);
    }
    damaged
}

fn damage(random: &mut Random, page: &mut Vec<u8>) {
    if page.is_empty() {
        page.push(random.byte());
        return;
    }
    let at = random.below(page.len());
    match random.below(7) {
        0 => page.truncate(at),
        1 => page[at] ^= 1 << random.below(8),
        2 => page[at] = random.byte(),
        3 => page[at] = random.byte() % 16,
        4 => page.insert(at, random.byte() % 32),
        5 => {
            page.remove(at);
        }
        _ => {
            let end = (at + random.between(1, 6)).min(page.len());
            let stretch = page[at..end].to_vec();
            page.splice(at..at, stretch);
        }
    }
}
