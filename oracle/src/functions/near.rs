//! Signatures that are unlike one of the table in a single way.

use crate::page::record::{Extra, Kind, Signature};
use crate::page::MAX_UPPER;

/// In which way a signature is unlike the table's.
#[derive(Debug, Clone, Copy, PartialEq, Eq)]
pub enum Unlike {
    KindChanged,
    KindAdded,
    KindDropped,
    Extra,
    Result,
}

impl Unlike {
    pub const ALL: [Unlike; 5] = [
        Unlike::KindChanged,
        Unlike::KindAdded,
        Unlike::KindDropped,
        Unlike::Extra,
        Unlike::Result,
    ];

    pub fn words(self) -> &'static str {
        match self {
            Unlike::KindChanged => "a kind changed",
            Unlike::KindAdded => "a kind added",
            Unlike::KindDropped => "a kind dropped",
            Unlike::Extra => "another extra",
            Unlike::Result => "another result",
        }
    }

    /// Whether some signature is unlike this one in this way: one without kinds has none to change or to drop.
    pub fn is_possible(self, known: &Signature) -> bool {
        let needs_kind = matches!(self, Unlike::KindChanged | Unlike::KindDropped);
        !(needs_kind && known.kinds.is_empty())
    }
}

/// The single way in which a signature is unlike the table's of the same name; nothing if it is like it, or unlike in
/// several ways.
pub fn unlike(carried: &Signature, known: &Signature) -> Option<Unlike> {
    let [kinds, others] = [&carried.kinds, &known.kinds];
    let by_kinds = match kinds.len() {
        more if more > others.len() => Some(Unlike::KindAdded),
        less if less < others.len() => Some(Unlike::KindDropped),
        _ => (kinds != others).then_some(Unlike::KindChanged),
    };
    let by_extra = (carried.extra != known.extra).then_some(Unlike::Extra);
    let by_result = (carried.result != known.result).then_some(Unlike::Result);
    let mut ways = [by_kinds, by_extra, by_result].into_iter().flatten();
    ways.next().filter(|_| ways.next().is_none())
}

/// Every signature that is unlike this one in this way, by one kind, by extra or by result.
pub fn signatures(known: &Signature<'static>, way: Unlike) -> Vec<Signature<'static>> {
    let with_kinds = |kinds| Signature {
        kinds,
        ..known.clone()
    };
    let kinds = &known.kinds;
    match way {
        Unlike::KindChanged => changed(kinds).into_iter().map(with_kinds).collect(),
        Unlike::KindAdded => added(kinds).into_iter().map(with_kinds).collect(),
        Unlike::KindDropped => dropped(kinds).into_iter().map(with_kinds).collect(),
        Unlike::Extra => {
            let others = extras().filter(|extra| *extra != known.extra);
            let with_extra = |extra| Signature {
                extra,
                ..known.clone()
            };
            others.map(with_extra).collect()
        }
        Unlike::Result => {
            let others = Kind::ALL.into_iter().filter(|kind| *kind != known.result);
            let with_result = |result| Signature {
                result,
                ..known.clone()
            };
            others.map(with_result).collect()
        }
    }
}

/// Every extra that a page can have.
fn extras() -> impl Iterator<Item = Extra> {
    let uppers = (1..=MAX_UPPER).map(Extra::Upper);
    [Extra::Fixed, Extra::Unlimited].into_iter().chain(uppers)
}

fn changed(kinds: &[Kind]) -> Vec<Vec<Kind>> {
    let mut lists = Vec::new();
    for (place, kind) in kinds.iter().enumerate() {
        for other in Kind::ALL.into_iter().filter(|other| other != kind) {
            let mut list = kinds.to_vec();
            list[place] = other;
            lists.push(list);
        }
    }
    lists
}

/// At every place every kind; a kind beside one like itself gives the same list twice, which is kept once.
fn added(kinds: &[Kind]) -> Vec<Vec<Kind>> {
    let mut lists: Vec<Vec<Kind>> = Vec::new();
    for place in 0..=kinds.len() {
        for kind in Kind::ALL {
            let mut list = kinds.to_vec();
            list.insert(place, kind);
            if !lists.contains(&list) {
                lists.push(list);
            }
        }
    }
    lists
}

fn dropped(kinds: &[Kind]) -> Vec<Vec<Kind>> {
    let mut lists: Vec<Vec<Kind>> = Vec::new();
    for place in 0..kinds.len() {
        let mut list = kinds.to_vec();
        list.remove(place);
        if !lists.contains(&list) {
            lists.push(list);
        }
    }
    lists
}
