//! The test of texts timed: ASCII by words and by bytes, then texts with more and more characters beyond ASCII beside
//! the Rust's `from_utf8`.

use super::{Asks, TextTest};
use crate::clock::nanoseconds;
use std::hint::black_box;
use std::slice;

/// Lengths that are timed.
const LENGTHS: [usize; 11] = [0, 1, 4, 7, 8, 9, 16, 31, 64, 127, 255];
const ROUNDS: usize = 60;
const CALLS: usize = 20_000;

/// Prints nanoseconds a call, the least of alternating rounds.
pub fn print_times(test: &TextTest) {
    println!("nanoseconds of CPU time a call, the least of {ROUNDS} alternating rounds");
    println!("bytes  by bytes  by words   ratio  by words, odd start");
    let memory = [b'v'; 256];
    for length in LENGTHS {
        let [bytes, words, odd] = least([
            (test.is_ascii, &memory[..length]),
            (test.is_text, &memory[..length]),
            (test.is_text, &memory[1..=length]),
        ]);
        println!(
            "{length:>5}  {bytes:>8.1}  {words:>8.1}  {:>6.1}  {odd:>8.1}",
            bytes / words
        );
    }
    print_times_of_characters(test);
}

/// What stands after how many letters, again and again.
const CHARACTERS: [(&str, &str, usize); 6] = [
    ("ASCII", "v", 0),
    ("an accent in 60 bytes", "é", 58),
    ("an accent in 20 bytes", "é", 18),
    ("an accent in 10 bytes", "é", 8),
    ("accents only", "é", 0),
    ("characters of three bytes only", "北", 0),
];

fn print_times_of_characters(test: &TextTest) {
    println!("\nbytes  text                            is_text  a byte  from_utf8  a byte");
    for length in [16, 64, 255] {
        for (words, character, letters) in CHARACTERS {
            let text = repeated(character, letters, length);
            if letters > 0 && text.is_ascii() {
                continue;
            }
            let [port, rust] = least([(test.is_text, &text), (rust, &text)]);
            let [port_byte, rust_byte] = [port, rust].map(|time| time / length as f64);
            println!(
                "{length:>5}  {words:<30}  {port:>7.1}  {port_byte:>6.2}  {rust:>9.1}  {rust_byte:>6.2}"
            );
        }
    }
}

/// Letters and a character, again and again; letters for what does not fit at the end.
fn repeated(character: &str, letters: usize, length: usize) -> Vec<u8> {
    let unit = "v".repeat(letters) + character;
    let mut text = unit.repeat(length / unit.len());
    text.push_str(&"v".repeat(length - text.len()));
    text.into_bytes()
}

/// The Rust's test, called like the port's.
unsafe extern "C" fn rust(start: *const u8, length: usize) -> bool {
    // SAFETY: so many bytes lie there.
    std::str::from_utf8(unsafe { slice::from_raw_parts(start, length) }).is_ok()
}

/// The least time of each call on its text.
fn least<const CASES: usize>(cases: [(Asks, &[u8]); CASES]) -> [f64; CASES] {
    let mut least = [f64::INFINITY; CASES];
    for _ in 0..ROUNDS {
        let times = cases.map(|(call, text)| time(call, text));
        for (least, time) in least.iter_mut().zip(times) {
            *least = least.min(time);
        }
    }
    least
}

/// Nanoseconds a call, over many calls.
fn time(call: Asks, text: &[u8]) -> f64 {
    let all = nanoseconds(|| {
        for _ in 0..CALLS {
            // SAFETY: the text is a slice.
            black_box(unsafe { call(black_box(text.as_ptr()), black_box(text.len())) });
        }
    });
    all / CALLS as f64
}
