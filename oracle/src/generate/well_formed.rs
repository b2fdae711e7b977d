//! Texts of well-formed UTF-8 (document 02, No. 10) in every kind of text: towns, characters at the edges of the
//! grammar's rows. In names they are refused.

use super::alphabet::{EDGES, TOWNS};
use super::carriers::{self, Page};
use super::{Generator, Made, Scope};
use crate::page::text_kind::TextKind;
use crate::random::Random;

/// A text that is taken, or refused with 4 where it is a name.
pub(super) fn taken(kind: TextKind, text: &str) -> Made {
    let page = Page::of(kind);
    let expected = match kind.is_name() {
        true => page.refused(4),
        false => page.accepted(),
    };
    Made::new(carriers::page(kind, text), expected)
}

fn in_every_kind(text: &str) -> impl Iterator<Item = Made> + '_ {
    TextKind::ALL.into_iter().map(move |kind| taken(kind, text))
}

/// A character at an edge, between letters, as string, label, name and value of a matcher.
fn edges() -> impl Iterator<Item = Made> {
    let kinds = [
        TextKind::String,
        TextKind::By,
        TextKind::MatcherName,
        TextKind::MatcherValue,
    ];
    EDGES.into_iter().flat_map(move |character| {
        let text = format!("v{character}v");
        kinds.map(|kind| taken(kind, &text))
    })
}

pub fn fixed() -> impl Iterator<Item = Made> {
    TOWNS.into_iter().flat_map(in_every_kind).chain(edges())
}

/// A name of letters that has longer characters, and so is none.
pub fn random_name(random: &mut Random) -> Made {
    let kind = *random.pick(&[TextKind::MetricName, TextKind::FunctionName]);
    let mut generator = Generator::new(random, 8, Scope::Utf8);
    let [before, after] = [0; 2].map(|_| "v".repeat(generator.random.below(12)));
    let longer = *generator.random.pick(&[
        "é",
        "北",
        "😀",
        "\u{80}",
        "\u{ffff}",
        "\u{10ffff}",
        "Zürich",
    ]);
    let name = before + longer + &after;
    generator.refused_with(kind, name.as_bytes(), &[])
}
