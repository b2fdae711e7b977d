//! The names of the function table, every name near one of them, what is no name, long ones, and random ones.

use super::Asker;
use oracle::functions::spelling::{near, strangers};
use oracle::functions::{names, written_names};
use oracle::generate::damaged;
use oracle::random::Random;

/// Lengths of which a byte or two bytes would keep that of a name.
const FAR: [usize; 7] = [64, 65, 255, 256, 259, 65_536, 65_539];

pub fn compare(asker: &mut Asker, random: u64) -> Result<(), String> {
    for name in names() {
        asker.compare_read_only(name.as_bytes())?;
        near(name)
            .iter()
            .try_for_each(|near| asker.compare(near.as_bytes()))?;
        long(name).try_for_each(|name| asker.compare(&name))?;
        not_text(name).try_for_each(|name| asker.compare(&name))?;
    }
    strangers()
        .iter()
        .try_for_each(|name| asker.compare(name.as_bytes()))?;
    asker.compare_read_only(b"")?;
    (0..=255).try_for_each(|byte| asker.compare(&[byte]))?;
    let numbers = &mut Random::new(1);
    (0..random).try_for_each(|_| asker.compare(&any(numbers)))
}

/// The name again and again, cut at lengths that could be taken for its own.
fn long(name: &'static str) -> impl Iterator<Item = Vec<u8>> {
    let lengths = FAR
        .into_iter()
        .chain([256 + name.len(), 65_536 + name.len()]);
    lengths.map(|length| name.bytes().cycle().take(length).collect())
}

/// The name with a byte that no name has, before it, inside it, in place of its last letter and behind it.
fn not_text(name: &'static str) -> impl Iterator<Item = Vec<u8>> {
    [0, b' ', b'(', 0x80, 0xc3, 0xff]
        .into_iter()
        .flat_map(move |byte| {
            [0, name.len() / 2, name.len()]
                .map(|place| {
                    let mut bytes = name.as_bytes().to_vec();
                    bytes.insert(place, byte);
                    bytes
                })
                .into_iter()
                .chain([[&name.as_bytes()[..name.len() - 1], &[byte]].concat()])
        })
}

/// A damaged name, parts of two names, letters of names, or any bytes.
fn any(random: &mut Random) -> Vec<u8> {
    let known: Vec<&str> = written_names().collect();
    let [one, other] = [0; 2].map(|_| *random.pick(&known));
    match random.below(4) {
        0 => damaged(random, one.as_bytes()),
        1 => {
            let [cut, from] = [one, other].map(|name| random.below(name.len() + 1));
            format!("{}{}", &one[..cut], &other[from..]).into_bytes()
        }
        2 => {
            let length = random.below(30);
            let letter = |_| *random.pick(b"abcdefghilmnopqrstuvxy_012");
            (0..length).map(letter).collect()
        }
        _ => {
            let length = random.below(40);
            (0..length).map(|_| random.byte()).collect()
        }
    }
}
