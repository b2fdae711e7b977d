//! A function with every signature that is unlike its own in one way, and under every name that is near its own.

use super::{arguments, call};
use crate::functions::near::{self, Unlike};
use crate::functions::spelling;
use crate::page::record::{Signature, Text};
use crate::page::write;

/// The function as it is, then with each of these: a call with as many arguments as it has kinds, of these kinds, and
/// one on an empty stack.
pub fn near_pages(known: &'static Signature<'static>) -> impl Iterator<Item = Vec<u8>> {
    let unlike = Unlike::ALL
        .into_iter()
        .flat_map(|way| near::signatures(known, way));
    let names = spelling::near(&known.name.text).into_iter();
    let named = names.map(|name| Signature {
        name: Text::from(name.as_str()),
        ..known.clone()
    });
    let carried = [known.clone()].into_iter().chain(unlike).chain(named);
    carried.flat_map(|carried| {
        let count = carried.kinds.len();
        [arguments(&carried, count), Vec::new()].map(|operands| {
            let call = call(carried.clone(), count);
            write::page(&[operands, vec![call]].concat())
        })
    })
}
