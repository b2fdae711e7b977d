//! How a text is ill-formed (RFC 3629, section 4): what is wrong where the Rust's `from_utf8` finds no character.

#[derive(Debug, Clone, Copy, PartialEq, Eq)]
pub enum IllFormed {
    CutByEnd,
    CutByCharacter,
    OverlongOfTwo,
    OverlongOfThree,
    OverlongOfFour,
    Surrogate,
    AboveBySecond,
    AboveByFirst,
    LoneTail,
    TailTooMany,
}

/// What is wrong, where, and whether bytes of the text follow what is wrong.
#[derive(Debug, Clone, Copy, PartialEq, Eq)]
pub struct Found {
    pub fault: IllFormed,
    pub start: usize,
    pub is_followed: bool,
}

impl IllFormed {
    pub const ALL: [IllFormed; 10] = [
        IllFormed::CutByEnd,
        IllFormed::CutByCharacter,
        IllFormed::OverlongOfTwo,
        IllFormed::OverlongOfThree,
        IllFormed::OverlongOfFour,
        IllFormed::Surrogate,
        IllFormed::AboveBySecond,
        IllFormed::AboveByFirst,
        IllFormed::LoneTail,
        IllFormed::TailTooMany,
    ];

    pub fn words(self) -> &'static str {
        match self {
            IllFormed::CutByEnd => "a character cut short by the text's end",
            IllFormed::CutByCharacter => "a character cut short by another one",
            IllFormed::OverlongOfTwo => "an overlong form of two bytes",
            IllFormed::OverlongOfThree => "an overlong form of three bytes",
            IllFormed::OverlongOfFour => "an overlong form of four bytes",
            IllFormed::Surrogate => "a surrogate",
            IllFormed::AboveBySecond => "above U+10FFFF by the second byte",
            IllFormed::AboveByFirst => "above U+10FFFF by the first byte",
            IllFormed::LoneTail => "a lone tail",
            IllFormed::TailTooMany => "a tail too many",
        }
    }

    /// Whether a text may end in it and may go on after it; a character that is cut short allows one of these only.
    pub fn may_be_followed(self) -> &'static [bool] {
        match self {
            IllFormed::CutByEnd => &[false],
            IllFormed::CutByCharacter => &[true],
            _ => &[false, true],
        }
    }

    /// The first fault of a text; nothing if it is well-formed.
    pub fn find(text: &[u8]) -> Option<Found> {
        let error = std::str::from_utf8(text).err()?;
        let start = error.valid_up_to();
        let rest = &text[start..];
        let is_after_tail = start > 0 && text[start - 1] > 127;
        let fault = match rest {
            _ if error.error_len().is_none() => IllFormed::CutByEnd,
            [0x80..=0xbf, ..] if is_after_tail => IllFormed::TailTooMany,
            [0x80..=0xbf, ..] => IllFormed::LoneTail,
            [0xc0 | 0xc1, ..] => IllFormed::OverlongOfTwo,
            [0xe0, 0x80..=0x9f, ..] => IllFormed::OverlongOfThree,
            [0xf0, 0x80..=0x8f, ..] => IllFormed::OverlongOfFour,
            [0xed, 0xa0..=0xbf, ..] => IllFormed::Surrogate,
            [0xf4, 0x90..=0xbf, ..] => IllFormed::AboveBySecond,
            [0xf5..=0xff, ..] => IllFormed::AboveByFirst,
            _ => IllFormed::CutByCharacter,
        };
        Some(Found {
            fault,
            start,
            is_followed: rest.len() > size(fault, rest),
        })
    }
}

/// How many bytes are wrong: one tail; of a cut character those that are there; else the first byte and its tails.
fn size(fault: IllFormed, rest: &[u8]) -> usize {
    if matches!(fault, IllFormed::LoneTail | IllFormed::TailTooMany) {
        return 1;
    }
    let is_tail = |byte: &&u8| (0x80..=0xbf).contains(*byte);
    1 + rest[1..].iter().take(3).take_while(is_tail).count()
}

/// Whether a text ends inside a character that the bytes after it would complete.
pub fn completes(text: &[u8], next: &[u8]) -> bool {
    let Err(error) = std::str::from_utf8(text) else {
        return false;
    };
    let (start, next) = (error.valid_up_to(), &next[..next.len().min(3)]);
    let is_completed = |tails: usize| {
        let character = [&text[start..], &next[..tails]].concat();
        std::str::from_utf8(&character).is_ok()
    };
    error.error_len().is_none() && (1..=next.len()).any(is_completed)
}
