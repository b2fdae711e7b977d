//! The comparison of the test of texts finds tests that look at too little or too much.

use compare::text_test::{compare, Asks, AsksFrom, TextTest};
use std::slice;
use std::str::from_utf8;

/// SAFETY: so many bytes lie there.
unsafe fn text<'a>(start: *const u8, length: usize) -> &'a [u8] {
    slice::from_raw_parts(start, length)
}

unsafe extern "C" fn right(start: *const u8, length: usize) -> bool {
    from_utf8(text(start, length)).is_ok()
}

unsafe extern "C" fn right_ascii(start: *const u8, length: usize) -> bool {
    text(start, length).is_ascii()
}

unsafe extern "C" fn right_from(start: *const u8, length: usize, from: usize) -> bool {
    text(start, length).iter().skip(from).all(u8::is_ascii)
}

/// The first word alone.
unsafe extern "C" fn first_word(start: *const u8, length: usize) -> bool {
    right(start, length.min(8))
}

/// Whole words alone.
unsafe extern "C" fn tail_untested(start: *const u8, length: usize) -> bool {
    let all = text(start, length);
    all[..length / 8 * 8].is_ascii() || right(start, length)
}

/// Seven bytes of each word; texts that are not found to be ASCII are tested well.
unsafe extern "C" fn mask_of_seven(start: *const u8, length: usize) -> bool {
    let is_ascii = |word: &[u8]| word[..word.len().min(7)].is_ascii();
    text(start, length).chunks(8).all(is_ascii) || right(start, length)
}

/// A byte after each word passed over, likewise.
unsafe extern "C" fn step_of_nine(start: *const u8, length: usize) -> bool {
    let is_ascii = |word: &[u8]| word[..word.len().min(8)].is_ascii();
    text(start, length).chunks(9).all(is_ascii) || right(start, length)
}

/// 128 taken for a byte below it, likewise.
unsafe extern "C" fn one_more(start: *const u8, length: usize) -> bool {
    text(start, length).iter().all(|byte| *byte <= 128) || right(start, length)
}

/// ASCII alone is text.
unsafe extern "C" fn ascii_only(start: *const u8, length: usize) -> bool {
    text(start, length).is_ascii()
}

/// What is after the first longer character is not tested.
unsafe extern "C" fn ends_at_accent(start: *const u8, length: usize) -> bool {
    let all = text(start, length);
    let place = all.iter().position(|byte| *byte > 127);
    let whole = |place: usize| {
        let ends = (place + 2..=length.min(place + 4)).map(|end| &all[place..end]);
        ends.into_iter()
            .any(|character| from_utf8(character).is_ok())
    };
    place.is_none_or(whole)
}

/// After a character only words of ASCII are tested, and no byte less.
unsafe extern "C" fn words_after_accent(start: *const u8, length: usize) -> bool {
    let all = text(start, length);
    let first = all.iter().position(|byte| *byte > 127);
    right(start, length)
        || first.is_some_and(|first| {
            let after = length - (length - first) % 8;
            after > first + 8 && from_utf8(&all[..after]).is_ok()
        })
}

/// A character is completed by the byte after the text.
unsafe extern "C" fn reads_on(start: *const u8, length: usize) -> bool {
    right(start, length) || length > 0 && right(start, length + 1)
}

/// Characters, and what is none but of which `taken` says how many bytes are passed over.
fn lenient(text: &[u8], taken: fn(&[u8]) -> usize) -> bool {
    let mut rest = text;
    while let Err(error) = from_utf8(rest) {
        rest = &rest[error.valid_up_to()..];
        match taken(rest) {
            0 => return false,
            size => rest = &rest[size..],
        }
    }
    true
}

unsafe extern "C" fn overlong_of_two(start: *const u8, length: usize) -> bool {
    lenient(text(start, length), |rest| match rest {
        [0xc0 | 0xc1, 0x80..=0xbf, ..] => 2,
        _ => 0,
    })
}

unsafe extern "C" fn overlong_of_three(start: *const u8, length: usize) -> bool {
    lenient(text(start, length), |rest| match rest {
        [0xe0, 0x80..=0x9f, 0x80..=0xbf, ..] => 3,
        _ => 0,
    })
}

unsafe extern "C" fn overlong_of_four(start: *const u8, length: usize) -> bool {
    lenient(text(start, length), |rest| match rest {
        [0xf0, 0x80..=0x8f, 0x80..=0xbf, 0x80..=0xbf, ..] => 4,
        _ => 0,
    })
}

unsafe extern "C" fn surrogates(start: *const u8, length: usize) -> bool {
    lenient(text(start, length), |rest| match rest {
        [0xed, 0xa0..=0xbf, 0x80..=0xbf, ..] => 3,
        _ => 0,
    })
}

unsafe extern "C" fn above_by_second(start: *const u8, length: usize) -> bool {
    lenient(text(start, length), |rest| match rest {
        [0xf4, 0x90..=0xbf, 0x80..=0xbf, 0x80..=0xbf, ..] => 4,
        _ => 0,
    })
}

unsafe extern "C" fn above_by_first(start: *const u8, length: usize) -> bool {
    lenient(text(start, length), |rest| match rest {
        [0xf5, 0x80..=0xbf, 0x80..=0xbf, 0x80..=0xbf, ..] => 4,
        _ => 0,
    })
}

unsafe extern "C" fn ends_inside(start: *const u8, length: usize) -> bool {
    lenient(text(start, length), |rest| match from_utf8(rest) {
        Err(error) if error.error_len().is_none() => rest.len(),
        _ => 0,
    })
}

unsafe extern "C" fn lone_tail(start: *const u8, length: usize) -> bool {
    lenient(text(start, length), |rest| {
        usize::from(matches!(rest, [0x80..=0xbf, ..]))
    })
}

/// The position itself passed over.
unsafe extern "C" fn from_next(start: *const u8, length: usize, from: usize) -> bool {
    right_from(start, length, from + 1)
}

/// Nothing passes from past the end.
unsafe extern "C" fn from_inside(start: *const u8, length: usize, from: usize) -> bool {
    from <= length && right_from(start, length, from)
}

const RIGHT: TextTest = TextTest {
    is_text: right,
    is_ascii: right_ascii,
    ascii_from: right_from,
};

#[test]
fn the_rust_is_found_right() {
    let tally = compare(&RIGHT).expect("no difference");
    let counts: Vec<u64> = tally.into_iter().map(|(_, count)| count).collect();
    assert_eq!(counts[..3], [1_112_064, 6_553_600, 16_843_008]);
    // Each of 37 characters among letters, at every place of every count of them, at four starts; others come to it.
    let among_letters = 4 * 37 * (265 * 266 / 2);
    assert!(counts[3] > among_letters, "{} texts", counts[3]);
    let places = 264 * 265 / 2;
    assert_eq!(counts[4], 17 * (265 + 7 * places));
    assert_eq!(counts[5], 500_000);
    // Whole texts, and such as end in one of six beginnings of a character.
    assert!(counts[6] > 2 * 7 * 262, "{} texts", counts[6]);
}

#[rustfmt::skip]
const WRONG: [(&str, Asks); 17] = [
    ("the first word alone", first_word), ("whole words alone", tail_untested),
    ("seven bytes of each word", mask_of_seven), ("a byte after each word", step_of_nine),
    ("128 taken for ASCII", one_more), ("ASCII alone", ascii_only), ("nothing after an accent", ends_at_accent),
    ("whole words after an accent", words_after_accent), ("the byte after the text", reads_on),
    ("overlong forms of two", overlong_of_two), ("overlong forms of three", overlong_of_three),
    ("overlong forms of four", overlong_of_four),
    ("surrogates", surrogates), ("above by the second byte", above_by_second), ("f5", above_by_first),
    ("an end inside a character", ends_inside), ("a lone tail passed over", lone_tail),
];

#[test]
fn planted_faults_are_found() {
    for (words, is_text) in WRONG {
        let difference = compare(&TextTest { is_text, ..RIGHT }).expect_err(words);
        assert!(difference.contains("\ntext: "), "{words}: {difference}");
    }
    for is_ascii in [right as Asks, first_word] {
        assert!(compare(&TextTest { is_ascii, ..RIGHT }).is_err());
    }
    for ascii_from in [from_next as AsksFrom, from_inside] {
        assert!(compare(&TextTest {
            ascii_from,
            ..RIGHT
        })
        .is_err());
    }
}
