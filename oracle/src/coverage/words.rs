//! Texts by words of eight bytes (document 02, No. 4): how long they are, where they start, where the first byte above
//! 127 stands: inside a character that is taken (No. 10), or where no character is.

use super::Coverage;
use crate::answer::{Outcome, Worked};
use crate::ill_formed::IllFormed;

const WORD: usize = 8;

#[rustfmt::skip]
const NAMED: &[&str] = &[
    "words: no byte", "words: less than a word", "words: whole words", "words: words and a tail", "words: 255 bytes",
    "words: a byte above 127 after the text", "words: refused in the first word", "words: refused in a later word",
    "words: refused in the tail", "words: a longer character in the tail", "words: a longer character over two words",
    "words: a word of ASCII after a longer character", "words: refused after a longer character and a word of ASCII",
];

pub(super) fn classes() -> Vec<String> {
    let mut classes: Vec<String> = NAMED.iter().map(ToString::to_string).collect();
    for place in 0..WORD {
        classes.push(format!("words: text from place {place}"));
        classes.push(format!("words: refused at place {place} of a word"));
        classes.push(format!(
            "words: a longer character at place {place} of a word"
        ));
    }
    classes
        .extend((0..WORD - 1).map(|place| format!("words: refused at place {place} of the tail")));
    classes
}

impl Coverage {
    pub(super) fn words(&mut self, worked: &Worked) {
        let texts = worked.records.iter().flat_map(|record| record.texts());
        for (_, text) in texts.filter(|(kind, _)| !kind.is_name()) {
            self.passed(text.start, text.text.len());
            self.longer_character(text.text.as_bytes());
            let next = worked.page.get(text.start + text.text.len());
            self.hit_if(
                next.is_some_and(|byte| *byte > 127),
                "words: a byte above 127 after the text",
            );
        }
        let is_refused = matches!(worked.outcome, Outcome::Refused { number: 4, .. });
        if let Some(field) = worked
            .text
            .filter(|field| is_refused && !field.kind.is_name())
        {
            self.refused_by_words(field.bytes(worked.page));
        }
    }

    fn passed(&mut self, start: usize, length: usize) {
        self.hit(match (length / WORD, length % WORD) {
            (0, 0) => "words: no byte",
            (0, _) => "words: less than a word",
            (_, 0) => "words: whole words",
            (_, _) => "words: words and a tail",
        });
        self.hit_if(length == 255, "words: 255 bytes");
        if length >= WORD {
            self.hit(format!("words: text from place {}", start % WORD));
        }
    }

    /// Where the first longer character of a text stands that has one and passed.
    fn longer_character(&mut self, text: &[u8]) {
        let is_longer = |byte: &u8| *byte > 127;
        let Some(place) = text.iter().position(is_longer) else {
            return;
        };
        let size = text[place..]
            .iter()
            .take_while(|byte| is_longer(byte))
            .count();
        let is_over = place % WORD + size > WORD;
        self.hit_if(is_over, "words: a longer character over two words");
        match place < text.len() / WORD * WORD {
            true => self.hit(format!(
                "words: a longer character at place {} of a word",
                place % WORD
            )),
            false => self.hit("words: a longer character in the tail"),
        }
        self.hit_if(
            has_word(&text[place..]),
            "words: a word of ASCII after a longer character",
        );
    }

    /// By the place where no character is, if all before it is ASCII: words alone lead there.
    fn refused_by_words(&mut self, text: &[u8]) {
        let place = IllFormed::find(text).expect("4 is refused").start;
        if let Some(longer) = text[..place].iter().position(|byte| *byte > 127) {
            let class = "words: refused after a longer character and a word of ASCII";
            return self.hit_if(has_word(&text[longer..place]), class);
        }
        let tail = text.len() / WORD * WORD;
        let within = place % WORD;
        if place >= tail {
            self.hit("words: refused in the tail");
            self.hit(format!("words: refused at place {within} of the tail"));
            return;
        }
        let is_first = place < WORD;
        self.hit_if(is_first, "words: refused in the first word");
        self.hit_if(!is_first, "words: refused in a later word");
        self.hit(format!("words: refused at place {within} of a word"));
    }
}

/// Whether eight bytes of ASCII stand together.
fn has_word(bytes: &[u8]) -> bool {
    bytes.windows(WORD).any(<[u8]>::is_ascii)
}
