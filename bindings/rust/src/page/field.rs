//! Single fields: numbers in groups of seven bits, and texts. At one field 1 comes first, then 3, then 4; a text is one
//! field.

use crate::Rule;

/// The longest text and the longest function name, in bytes; the longest list; the largest number.
const MAX_TEXT: u64 = 255;
const MAX_NAME: u64 = 64;
const MAX_LIST: u64 = 16;
const MAX_NUMBER: u64 = 1 << 53;

/// The value of a field, or the rule that it breaks: 1, 3 or 4.
pub type Field<T> = Result<T, Rule>;

/// Groups of seven bits, lowest first, the high bit of each byte set except the last.
pub fn put_number(bytes: &mut Vec<u8>, mut number: u64) {
    while number >= 0x80 {
        bytes.push(number as u8 | 0x80);
        number >>= 7;
    }
    bytes.push(number as u8);
}

/// A length and bytes.
pub fn put_text(bytes: &mut Vec<u8>, text: &str) {
    put_number(bytes, text.len() as u64);
    bytes.extend_from_slice(text.as_bytes());
}

/// Reads field after field from the bytes that are left.
pub struct Reader<'a> {
    pub rest: &'a [u8],
}

impl Reader<'_> {
    /// Shortest form only, at most 2^53.
    pub fn number(&mut self) -> Field<u64> {
        let is_last = |byte: &u8| *byte < 0x80;
        let groups = self.rest.iter().position(is_last).ok_or(Rule::BadField)? + 1;
        let (number, rest) = self.rest.split_at(groups);
        self.rest = rest;
        let is_shortest = groups == 1 || number[groups - 1] != 0;
        if !is_shortest || groups > 8 {
            return Err(Rule::BadField);
        }
        let value = number
            .iter()
            .rfold(0, |value, byte| value << 7 | u64::from(byte & 0x7f));
        ensure(value <= MAX_NUMBER, value, Rule::BadField)
    }

    /// A number that names one of so many choices, from 0.
    pub fn choice(&mut self, choices: u64) -> Field<u64> {
        let number = self.number()?;
        ensure(number < choices, number, Rule::BadField)
    }

    /// 0 or 1.
    pub fn flag(&mut self) -> Field<bool> {
        Ok(self.choice(2)? == 1)
    }

    /// A number up to a limit.
    pub fn number_within(&mut self, limit: u64) -> Field<u64> {
        let number = self.number()?;
        ensure(number <= limit, number, Rule::PastLimit)
    }

    /// How many elements or arguments there are.
    pub fn count(&mut self) -> Field<usize> {
        Ok(self.number_within(MAX_LIST)? as usize)
    }

    /// A count and so many elements.
    pub fn list<T>(&mut self, element: fn(&mut Self) -> Field<T>) -> Field<Vec<T>> {
        let count = self.count()?;
        (0..count).map(|_| element(self)).collect()
    }

    /// Any text.
    pub fn text(&mut self) -> Field<String> {
        self.text_within(MAX_TEXT, |_| true)
    }

    /// Empty, or a letter, `_` or `:`, then these or digits.
    pub fn metric_name(&mut self) -> Field<String> {
        let is_allowed = |name: &str| name.is_empty() || is_name(name, &['_', ':']);
        self.text_within(MAX_TEXT, is_allowed)
    }

    /// A letter or `_`, then these or digits.
    pub fn function_name(&mut self) -> Field<String> {
        self.text_within(MAX_NAME, |name| is_name(name, &['_']))
    }

    /// Well-formed UTF-8 that is allowed, of so many bytes at most.
    fn text_within(&mut self, limit: u64, is_allowed: fn(&str) -> bool) -> Field<String> {
        let length = self.number()?;
        if length > self.rest.len() as u64 {
            return Err(Rule::BadField);
        }
        if length > limit {
            return Err(Rule::PastLimit);
        }
        let (bytes, rest) = self.rest.split_at(length as usize);
        self.rest = rest;
        let text = std::str::from_utf8(bytes).map_err(|_| Rule::BadText)?;
        ensure(is_allowed(text), text.into(), Rule::BadText)
    }
}

/// The value where the field is right, else the rule that it breaks.
pub fn ensure<T>(is_right: bool, value: T, rule: Rule) -> Field<T> {
    is_right.then_some(value).ok_or(rule)
}

/// A letter or one of the marks, then these or digits, all of them ASCII.
fn is_name(name: &str, marks: &[char]) -> bool {
    let is_letter = |letter: char| letter.is_ascii_alphabetic() || marks.contains(&letter);
    name.starts_with(is_letter)
        && name
            .chars()
            .all(|letter| is_letter(letter) || letter.is_ascii_digit())
}
