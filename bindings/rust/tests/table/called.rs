//! Calls of functions, with operands that they take.

use sandzguli::page::{Function, Page, Record};
use sandzguli::Kind;

/// Operands of the kinds that a function declares, and its call.
pub fn called(function: &Function) -> Page {
    let mut page = Page::new();
    for kind in &function.signature.kinds {
        page.extend(match kind {
            Kind::Vector => vec![Record::selector("up", [])],
            Kind::Matrix => vec![Record::selector("up", []), Record::Range(1)],
            Kind::Scalar => vec![Record::whole(1)],
            Kind::String => vec![Record::string("a")],
        });
    }
    page.then(Record::call(
        function.clone(),
        function.signature.kinds.len(),
    ))
}

/// The record of the call that stands last.
pub fn last(page: &Page) -> usize {
    page.records.len() - 1
}
