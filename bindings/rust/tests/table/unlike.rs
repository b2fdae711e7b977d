//! Signatures that are almost the table's.

use sandzguli::page::{Signature, Variadic};
use sandzguli::Kind;

/// A list of kinds with any one more at its end, with another one at any place, and with one less.
fn changed(kinds: &[Kind]) -> Vec<Vec<Kind>> {
    let mut lists = Vec::new();
    for kind in Kind::ALL {
        lists.push([kinds, &[kind]].concat());
        for place in 0..kinds.len() {
            let mut list = kinds.to_vec();
            list[place] = kind;
            lists.push(list);
        }
    }
    for place in 0..kinds.len() {
        lists.push([&kinds[..place], &kinds[place + 1..]].concat());
    }
    lists
}

/// The signatures that differ from one in its kinds, its extra or its result.
pub fn unlike(signature: &Signature) -> Vec<Signature> {
    let own = || signature.clone();
    let by_kinds = changed(&signature.kinds);
    let by_kinds = by_kinds
        .into_iter()
        .map(|kinds| Signature { kinds, ..own() });
    let extras = (1..=16).map(Variadic::UpTo);
    let extras = extras.chain([Variadic::Fixed, Variadic::Unlimited]);
    let by_extra = extras.map(|variadic| Signature { variadic, ..own() });
    let by_result = Kind::ALL.map(|result| Signature { result, ..own() });
    let all = by_kinds.chain(by_extra).chain(by_result);
    all.filter(|other| other != signature).collect()
}
