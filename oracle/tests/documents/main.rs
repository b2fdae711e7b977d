//! The functions documents of Prometheus are the ones that were handed over, and every signature is read out of them
//! (document 02, No. 13); what only looks like one is none, and a document that says two things is not read.

mod forms;
mod shown;

use oracle::documents::{Document, Functions};

fn functions(document: Document) -> Functions {
    document.functions().expect("the document is read")
}
