//! Texts around whole words of eight bytes (document 02, No. 4): of every length up to 255, all of ASCII, with a longer
//! character at any place (No. 10), or with one byte at any place that makes the text ill-formed.

use super::alphabet::LONGER;
use super::{Generator, Made, Records, Scope};
use crate::answer::Outcome;
use crate::page::read::Reader;
use crate::page::record::{Grouping, Kind, Matcher, Operation, Record, Text};
use crate::page::write;
use crate::random::Random;

const ACCEPTED: Outcome = Outcome::Accepted(Kind::Vector);
const REFUSED: Outcome = Outcome::Refused {
    number: 4,
    record: 0,
};

/// The selector `m{a!="..",..}` with these values.
fn selector<'v>(values: impl ExactSizeIterator<Item = &'v [u8]>) -> Vec<u8> {
    let mut page = vec![2, 1, b'm', values.len() as u8];
    for value in values {
        page.extend([1, 1, b'a']);
        write::number(&mut page, value.len() as u64);
        page.extend(value);
    }
    page
}

/// A selector with so many values of so many letters each.
pub fn values(count: usize, length: usize) -> Vec<u8> {
    let value = vec![b'v'; length];
    selector(vec![value.as_slice(); count].into_iter())
}

/// Letters `v`, and at one place another byte.
fn value(length: usize, place: usize, byte: u8) -> Vec<u8> {
    let mut value = vec![b'v'; length];
    value[place] = byte;
    value
}

/// Where a byte above 127 stands among letters, which is ill-formed: the texts of the request, then the first and the
/// last eight places of long values.
fn spoiled() -> impl Iterator<Item = (usize, usize, u8)> {
    let request = [
        (7, 6, 0x80),
        (8, 7, 0x80),
        (9, 8, 0x80),
        (255, 0, 0x80),
        (255, 247, 0xff),
        (255, 248, 0xff),
        (255, 254, 0x80),
    ];
    let long = [247, 248, 249, 254, 255].into_iter().flat_map(|length| {
        let places = (0..8).chain(length - 8..length);
        places.flat_map(move |place| [0x80, 0xff].map(|byte| (length, place, byte)))
    });
    request.into_iter().chain(long)
}

/// A selector with this value.
fn one_value(value: &[u8], expected: Outcome) -> Made {
    Made::new(selector([value].into_iter()), expected)
}

/// A longer character at the first and the last places of a value among letters; the same with a letter for its last
/// byte.
fn with_character(length: usize, character: char) -> impl Iterator<Item = Made> {
    let last = length - character.len_utf8();
    let places = (0..8).chain(last - 7..=last);
    places.flat_map(move |place| {
        let mut value = vec![b'v'; length];
        let end = place + character.len_utf8();
        value[place..end].copy_from_slice(character.to_string().as_bytes());
        let whole = one_value(&value, ACCEPTED);
        value[end - 1] = b'v';
        [whole, one_value(&value, REFUSED)]
    })
}

/// Chosen values: good ones at the edges of words, those with a byte above 127, those with a longer character.
pub fn fixed() -> impl Iterator<Item = Made> {
    let lengths = (0..=17).chain(247..=255);
    let good = lengths.map(|length| one_value(&vec![0x7f; length], ACCEPTED));
    let spoiled =
        spoiled().map(|(length, place, byte)| one_value(&value(length, place, byte), REFUSED));
    let longer = [17, 24, 255].into_iter().flat_map(|length| {
        let with_character = move |character| with_character(length, character);
        LONGER.into_iter().flat_map(with_character)
    });
    good.chain(spoiled).chain(longer)
}

/// A string, a selector with matchers or an aggregate with labels. In half of them a byte of one text has its highest
/// bit turned, which makes every well-formed text ill-formed.
pub fn random(random: &mut Random, scope: Scope) -> Made {
    let mut generator = Generator::new(random, 255, scope);
    let (records, kind) = generator.with_long_texts();
    let mut page = write::page(&records);
    let mut expected = Outcome::Accepted(kind);
    if random.chance(50) {
        if let Some((place, record)) = tested_byte(random, &page) {
            page[place] ^= 0x80;
            expected = Outcome::Refused { number: 4, record };
        }
    }
    Made::new(page, expected)
}

/// The place of a byte of some text that is no name, and the record that has it; nothing where all are empty.
fn tested_byte(random: &mut Random, page: &[u8]) -> Option<(usize, usize)> {
    let mut reader = Reader::new(page);
    let mut texts = Vec::new();
    let mut index = 0;
    while !reader.is_at_end() {
        let record = reader.record().ok()?;
        let parts = record
            .texts()
            .into_iter()
            .filter(|(kind, _)| !kind.is_name());
        texts.extend(parts.map(|(_, text)| (text.start, text.text.len(), index)));
        index += 1;
    }
    texts.retain(|(_, length, _)| *length > 0);
    if texts.is_empty() {
        return None;
    }
    let (start, length, record) = *random.pick(&texts);
    Some((start + random.below(length), record))
}

impl Generator<'_> {
    fn with_long_texts(&mut self) -> (Records, Kind) {
        match self.random.below(4) {
            0 => (vec![Record::String(self.long_text(255))], Kind::String),
            1 => (self.long_labels(), Kind::Vector),
            _ => (vec![self.long_matchers()], Kind::Vector),
        }
    }

    /// Any characters: a few bytes, some words and a byte more or less, nearly 255, or any count.
    fn long_text(&mut self, most: usize) -> Text<'static> {
        let length = match self.random.below(4) {
            0 => self.random.between(0, 17),
            1 => (8 * self.random.between(1, 31) + self.random.below(3)) - 1,
            2 => self.random.between(240, 255),
            _ => self.random.between(0, 255),
        };
        let length = length.min(most);
        if self.scope >= Scope::Utf8 {
            return Text::from(self.characters(length).as_str());
        }
        let text: String = (0..length)
            .map(|_| char::from(self.random.byte() & 0x7f))
            .collect();
        Text::from(text.as_str())
    }

    fn long_matchers(&mut self) -> Record<'static> {
        let count = self.random.between(1, 16);
        let matcher = |_| Matcher {
            operation: *self.random.pick(&[Operation::Equal, Operation::NotEqual]),
            name: self.long_name(),
            value: self.long_text(255),
        };
        Record::Selector {
            name: Text::from("m"),
            matchers: (0..count).map(matcher).collect(),
        }
    }

    /// The name of a matcher: not `__name__`, which a selector with a name may not have.
    fn long_name(&mut self) -> Text<'static> {
        loop {
            let name = self.long_text(40);
            if name.text != "__name__" {
                return name;
            }
        }
    }

    /// `sum by (..) (up)`.
    fn long_labels(&mut self) -> Records {
        let count = self.random.between(1, 16);
        let up = Record::Selector {
            name: Text::from("up"),
            matchers: Vec::new(),
        };
        let labels = (0..count).map(|_| self.long_text(255)).collect();
        let sum = Record::Aggregate {
            code: 27,
            grouping: Grouping::By(labels),
            arguments: 1,
        };
        vec![up, sum]
    }
}
