//! The rows of a table of functions, as the definitions have them.

use oracle::page::record::{Extra, Kind, Signature, Text};

pub fn kind(word: &str) -> Kind {
    match word {
        "vector" => Kind::Vector,
        "scalar" => Kind::Scalar,
        "matrix" => Kind::Matrix,
        "string" => Kind::String,
        _ => panic!("no kind: {word}"),
    }
}

fn extra(words: &str) -> Extra {
    match words.trim_matches(['(', ')']) {
        "fixed" => Extra::Fixed,
        "unlimited" => Extra::Unlimited,
        upper => {
            let upper = upper.strip_prefix("up_to ").expect("an upper");
            Extra::Upper(upper.parse().expect("a number"))
        }
    }
}

/// A row of the definitions: `function "round" (vector ∷ scalar ∷ []) (up_to 1) vector`; without kinds the list is `[]`.
pub fn row(line: &str) -> Option<Signature<'static>> {
    let row = line.trim().trim_start_matches("∷ ");
    let row = row
        .strip_prefix("function \"")?
        .trim_end_matches("∷ []")
        .trim();
    let (name, rest) = row.split_once("\" ")?;
    let (kinds, rest) = rest.split_once("[]")?;
    let (words, result) = rest.trim_start_matches(')').trim().rsplit_once(' ')?;
    let kinds = kinds.trim_matches(['(', ' ']).split('∷').map(str::trim);
    Some(Signature {
        name: Text::from(name),
        kinds: kinds.filter(|word| !word.is_empty()).map(kind).collect(),
        extra: extra(words),
        result: kind(result),
    })
}
