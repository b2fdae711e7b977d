//! Fields that a copy must not lose or make alike.

use super::Fault;
use oracle::page::record::*;
use oracle::times;

fn modifiers<'r, 'a>(
    copied: &'r mut [Record<'a>],
) -> impl Iterator<Item = &'r mut Option<Modifier<'a>>> {
    copied.iter_mut().filter_map(|record| match record {
        Record::Binary { modifier, .. } => Some(modifier),
        _ => None,
    })
}

fn matchers<'r, 'a>(
    copied: &'r mut [Record<'a>],
) -> impl Iterator<Item = &'r mut Vec<Matcher<'a>>> {
    copied.iter_mut().filter_map(|record| match record {
        Record::Selector { matchers, .. } => Some(matchers),
        _ => None,
    })
}

fn both_set(copied: &[Record]) -> Option<usize> {
    let is_both = |pair: &[Record]| matches!(pair, [Record::At(_), Record::Offset { .. }]);
    copied.windows(2).position(is_both)
}

fn texts<'r>(matcher: &'r Matcher) -> [&'r str; 2] {
    [&matcher.name, &matcher.value].map(|text| text.text.as_ref())
}

/// Fields that are lost or made alike.
#[rustfmt::skip]
pub const LOSSES: [(&str, Fault); 20] = [
    ("@ dropped beside an offset", |_, copied| {
        while let Some(place) = both_set(copied) { copied.remove(place); }
    }),
    ("an offset dropped behind @", |_, copied| {
        while let Some(place) = both_set(copied) { copied.remove(place + 1); }
    }),
    ("matchers sorted", |_, copied| {
        for list in matchers(copied) { list.sort_by(|one, other| texts(one).cmp(&texts(other))); }
    }),
    ("double matchers dropped", |_, copied| {
        for list in matchers(copied) {
            list.dedup_by(|one, other| texts(one) == texts(other) && one.operation == other.operation);
        }
    }),
    ("labels sorted", |_, copied| {
        for record in copied {
            if let Record::Aggregate { grouping: Grouping::By(labels) | Grouping::Without(labels), .. } = record {
                labels.sort_by(|one, other| one.text.cmp(&other.text));
            }
        }
    }),
    ("offset 0s for -0s", |_, copied| {
        for record in copied {
            if let Record::Offset { is_minus, milliseconds: 0 } = record { *is_minus = false; }
        }
    }),
    ("0 for -0", |_, copied| {
        for record in copied {
            if *record == Record::Number(Number::NegativeWhole(0)) { *record = Record::Number(Number::Whole(0)); }
        }
    }),
    ("a fill of 0 for -0", |_, copied| {
        for modifier in modifiers(copied).flatten() {
            for fill in [&mut modifier.left_fill, &mut modifier.right_fill] {
                if *fill == Some(Number::NegativeWhole(0)) { *fill = Some(Number::Whole(0)); }
            }
        }
    }),
    ("a fill of NaN left out", |_, copied| {
        for modifier in modifiers(copied).flatten() {
            for fill in [&mut modifier.left_fill, &mut modifier.right_fill] {
                if *fill == Some(Number::NaN) { *fill = None; }
            }
        }
    }),
    ("@ 0 for earlier times", |_, copied| {
        for record in copied {
            if let Record::At(At::Before(_)) = record { *record = Record::At(At::After(0)); }
        }
    }),
    ("an empty modifier left out", |_, copied| {
        for modifier in modifiers(copied) {
            if *modifier == Some(Modifier::EMPTY) { *modifier = None; }
        }
    }),
    ("ignoring () left out", |_, copied| {
        for modifier in modifiers(copied).flatten() {
            if modifier.matching == Matching::Ignoring(Vec::new()) { modifier.matching = Matching::None; }
        }
    }),
    ("by () left out", |_, copied| {
        for record in copied {
            if let Record::Aggregate { grouping, .. } = record {
                if *grouping == Grouping::By(Vec::new()) { *grouping = Grouping::None; }
            }
        }
    }),
    ("a step of 0s left out", |_, copied| {
        for record in copied {
            if let Record::Subquery { step, .. } = record { *step = step.filter(|step| *step > 0); }
        }
    }),
    ("every flag 0", |_, copied| {
        for matcher in matchers(copied).flatten() {
            if let Operation::Regex(flag) | Operation::NotRegex(flag) = &mut matcher.operation { *flag = false; }
        }
    }),
    ("the page's modifiers", |page, copied| {
        let given = page.iter().filter_map(|record| match record {
            Record::Binary { modifier, .. } => Some(modifier),
            _ => None,
        });
        for (modifier, given) in modifiers(copied).zip(given) { modifier.clone_from(given); }
    }),
    ("numbers and unary as on the page", |page, copied| {
        if times::found(page).is_empty() { *copied = page.to_vec(); }
    }),
    ("extra arguments unlimited", |_, copied| {
        for record in copied {
            if let Record::Call { signature, .. } = record {
                if let Extra::Upper(_) = signature.extra { signature.extra = Extra::Unlimited; }
            }
        }
    }),
    ("every result a vector", |_, copied| {
        for record in copied {
            if let Record::Call { signature, .. } = record { signature.result = Kind::Vector; }
        }
    }),
    ("the outermost paren dropped", |_, copied| {
        if copied.last() == Some(&Record::Paren) { copied.pop(); }
    }),
];
