//! Patterns that fill the 255 bytes of a text, or nearly: nested as deep as they can be, long runs, many sequences, and
//! such as are spoiled by their last byte.

use super::super::{Generator, Made};
use super::selectors::{both_flags, up, Pattern};
use super::spelling::covered;

/// Something that is repeated before and after a middle part.
struct Nest {
    words: &'static str,
    open: &'static str,
    times: usize,
    middle: &'static str,
    close: &'static str,
}

const fn nest(
    words: &'static str,
    (open, times): (&'static str, usize),
    middle: &'static str,
    close: &'static str,
) -> Nest {
    Nest {
        words,
        open,
        times,
        middle,
        close,
    }
}

impl Nest {
    fn pattern(&self) -> String {
        let [open, close] = [self.open, self.close].map(|part| part.repeat(self.times));
        [&open, self.middle, &close].concat()
    }
}

#[rustfmt::skip]
const NESTS: &[Nest] = &[
    nest("127 brackets around a letter", ("(", 127), "a", ")"),
    nest("127 brackets around nothing", ("(", 127), "", ")"),
    nest("126 brackets around a letter and an empty sequence", ("(", 126), "a|", ")"),
    nest("128 brackets, one not closed", ("(", 127), "(", ")"),
    nest("127 brackets, one closing bracket too many", ("(", 127), ")", ")"),
    nest("127 brackets around a repeat of nothing", ("(", 127), "*", ")"),
    nest("127 brackets around a foreign byte", ("(", 127), ":", ")"),
    nest("84 brackets, each with a star", ("(", 84), "abc", ")*"),
    nest("84 brackets, each with a plus", ("(", 84), "abc", ")+"),
    nest("84 brackets, each with a plus, around a star", ("(", 84), "ab*", ")+"),
    nest("84 brackets, each with a plus, around stars", ("(", 84), "a*", ")+"),
    nest("84 brackets, each optional", ("(", 84), "abc", ")?"),
    nest("85 brackets, each with a star, around nothing", ("(", 85), "", ")*"),
    nest("63 brackets, each with two stars", ("(", 63), "abc", ")**"),
    nest("63 choices, each in the last of another", ("(a|", 63), "abc", ")"),
    nest("63 choices, the innermost with an empty one", ("(a|", 63), "ab|", ")"),
    nest("63 choices, each in the first of another", ("(", 63), "abc", "|a)"),
    nest("63 brackets, each behind a star", ("(a*", 63), "abc", ")"),
    nest("50 choices, sequences and stars", ("(|a", 50), "abcde", ")*"),
    nest("50 choices, sequences and pluses", ("(.|", 50), "abcde", ")+"),
    nest("255 brackets, none closed", ("(", 255), "", ""),
    nest("255 closing brackets", ("", 255), "", ")"),
    nest("85 choices, none closed", ("(a|", 85), "", ""),
    nest("127 brackets with a star, none opened", ("", 127), "a", ")*"),
    nest("255 letters", ("a", 255), "", ""),
    nest("255 dots", (".", 255), "", ""),
    nest("254 letters and a star", ("a", 254), "*", ""),
    nest("254 letters and a closing bracket", ("a", 254), ")", ""),
    nest("254 letters and a foreign byte", ("a", 254), "/", ""),
    nest("a bracket not closed and 254 letters", ("", 254), "(", "a"),
    nest("a star and 254 letters", ("", 254), "*", "a"),
    nest("255 empty sequences and one", ("|", 255), "", ""),
    nest("128 sequences", ("a|", 127), "a", ""),
    nest("128 sequences, the last one empty", ("a|", 127), "", ""),
    nest("128 sequences, the first one empty", ("", 127), "|", "|a"),
    nest("127 stars and a letter", ("a*", 127), "a", ""),
    nest("127 stars", ("a*", 127), "", ""),
    nest("127 stars, the last one twice", ("a*", 126), "a**", ""),
    nest("127 pluses", ("a+", 127), "", ""),
    nest("127 optional dots", (".?", 127), "", ""),
    nest("127 brackets with nothing in them", ("()", 127), "", ""),
    nest("85 brackets with nothing in them and a plus", ("()+", 85), "", ""),
    nest("63 letters in brackets with a star", ("(a)*", 63), "", ""),
    nest("63 letters in brackets with a star and one without", ("(a)*", 63), "(a)", ""),
];

/// Each with words for it.
pub fn all() -> impl Iterator<Item = (&'static str, String)> {
    NESTS.iter().map(|nest| (nest.words, nest.pattern()))
}

/// With both flags, the operations taking turns.
pub(super) fn fixed() -> impl Iterator<Item = Made> {
    let operations = Pattern::BOTH.into_iter().cycle();
    let patterns = all().zip(operations);
    patterns.flat_map(|((_, pattern), operation)| both_flags(operation, &pattern))
}

impl Generator<'_> {
    /// One of these, or a covered pattern of up to 255 bytes, in one or a few matchers.
    pub(super) fn full_page(&mut self) -> Made {
        let count = *self.random.pick(&[1, 1, 1, 2, 3]);
        let mut matchers = Vec::new();
        for _ in 0..count {
            let pattern = match self.random.chance(40) {
                true => self.random.pick(NESTS).pattern(),
                false => {
                    let most = self.random.between(60, 255);
                    covered(self.random, most)
                }
            };
            let operation = *self.random.pick(&Pattern::BOTH);
            matchers.push(operation.matcher(&pattern, self.random.chance(50)));
        }
        up(matchers)
    }
}
