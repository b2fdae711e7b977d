//! A signature as the documents write it: `round(v instant-vector, to_nearest=1 scalar)`.

use crate::page::record::{Extra, Kind};

#[derive(Debug, Clone, Copy, PartialEq, Eq)]
pub struct Argument {
    pub kind: Kind,
    /// It has a default, as `to_nearest=1 scalar`, or stands in brackets, as `[data-label-selector instant-vector]`.
    pub is_optional: bool,
}

/// What stands between the parentheses.
#[derive(Debug, Clone, PartialEq)]
pub struct Shown {
    pub arguments: Vec<Argument>,
    /// Whether `...` stands behind the last argument.
    pub goes_on: bool,
}

impl Shown {
    pub fn kinds(&self) -> impl Iterator<Item = Kind> + '_ {
        self.arguments.iter().map(|argument| argument.kind)
    }

    /// "Its optional ones counted as extra"; what goes on is unlimited.
    pub fn extra(&self) -> Extra {
        let is_optional = |argument: &&Argument| argument.is_optional;
        match self.arguments.iter().filter(is_optional).count() {
            _ if self.goes_on => Extra::Unlimited,
            0 => Extra::Fixed,
            optional => Extra::Upper(optional as u64),
        }
    }
}

/// The name and what stands in the parentheses; nothing for code that is something else. Every argument must have a
/// kind: in `rate(v)`, `vector(time())` and `histogram_quantile(0, v instant-vector)` one has none.
pub fn of(code: &str) -> Option<(&str, Shown)> {
    let (name, rest) = code.split_once('(')?;
    let inside = rest.strip_suffix(')')?;
    if !is_function_name(name) {
        return None;
    }
    let mut texts = match inside.trim() {
        "" => Vec::new(),
        _ => separated(inside),
    };
    let goes_on = texts.len() > 1 && texts.last() == Some(&"...");
    if goes_on {
        texts.pop();
    }
    let arguments: Option<Vec<Argument>> = texts.into_iter().map(argument).collect();
    let shown = Shown {
        arguments: arguments?,
        goes_on,
    };
    Some((name, shown))
}

/// Small letters, digits and `_`, a letter first.
fn is_function_name(name: &str) -> bool {
    let is_inside = |byte: u8| byte.is_ascii_lowercase() || byte.is_ascii_digit() || byte == b'_';
    name.starts_with(|first: char| first.is_ascii_lowercase()) && name.bytes().all(is_inside)
}

/// The texts between the commas that stand in no parentheses and no brackets.
fn separated(inside: &str) -> Vec<&str> {
    let mut texts = Vec::new();
    let (mut depth, mut start) = (0, 0);
    for (place, sign) in inside.char_indices() {
        match sign {
            '(' | '[' => depth += 1,
            ')' | ']' => depth -= 1,
            ',' if depth == 0 => {
                texts.push(inside[start..place].trim());
                start = place + 1;
            }
            _ => {}
        }
    }
    texts.push(inside[start..].trim());
    texts
}

/// A kind behind a name or alone, with a default behind the name, or in brackets.
fn argument(text: &str) -> Option<Argument> {
    let in_brackets = text
        .strip_prefix('[')
        .and_then(|text| text.strip_suffix(']'));
    let text = in_brackets.unwrap_or(text);
    let (named, kind) = text.rsplit_once(' ').unwrap_or(("", text));
    let (name, default) = match named.split_once('=') {
        Some((name, default)) => (name, Some(default)),
        None => (named, None),
    };
    let is_named = text == kind || is_argument_name(name.trim());
    let argument = Argument {
        kind: kind_of(kind)?,
        is_optional: in_brackets.is_some() || default.is_some(),
    };
    is_named.then_some(argument)
}

/// A letter, as `φ`, then letters, digits, `_` and `-`.
fn is_argument_name(name: &str) -> bool {
    let is_inside = |sign: char| sign.is_alphanumeric() || matches!(sign, '_' | '-');
    name.starts_with(char::is_alphabetic) && name.chars().all(is_inside)
}

fn kind_of(word: &str) -> Option<Kind> {
    match word {
        "instant-vector" => Some(Kind::Vector),
        "range-vector" => Some(Kind::Matrix),
        "scalar" => Some(Kind::Scalar),
        "string" => Some(Kind::String),
        _ => None,
    }
}
