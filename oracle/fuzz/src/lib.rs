//! What libFuzzer runs on each input: the library's ten calls on it as a page, the call for patterns on it and on the
//! values of its matchers, and the call for signatures on it and on the names of its calls, held against the oracle as
//! `compare` does.

#[cfg(feature = "planted")]
mod planted;

use compare::judge::Judge;
use compare::library::Library;
use compare::{functions, patterns};
use oracle::answer::{self, Worked};
use oracle::hex;
use oracle::page::record::Record;
use std::cell::RefCell;
use std::ffi::c_int;

/// Seeds the bytes that buffers hold before a call.
const SEED: u64 = 1;

fn library() -> Library {
    #[cfg(feature = "planted")]
    return planted::library();
    #[cfg(not(feature = "planted"))]
    Library::linked()
}

fn compare(page: &[u8]) -> Result<(), String> {
    thread_local! {
        static JUDGE: RefCell<Judge> = RefCell::new(Judge::new(library(), SEED));
        static PATTERNS: RefCell<patterns::Asker> = RefCell::new(patterns::Asker::new(library()));
        static FUNCTIONS: RefCell<functions::Asker> = RefCell::new(functions::Asker::new(library()));
    }
    let worked = answer::work(page)
        .map_err(|failure| format!("{}\npage: {}", failure.0, hex::text(page)))?;
    let answer = answer::of_worked(&worked);
    JUDGE.with_borrow_mut(|judge| judge.compare(page, &answer))?;
    PATTERNS.with_borrow_mut(|asker| {
        asker.compare(page)?;
        values(&worked).try_for_each(|value| asker.compare(value))
    })?;
    FUNCTIONS.with_borrow_mut(|asker| {
        asker.compare(page)?;
        names(&worked).try_for_each(|name| asker.compare(name))
    })
}

/// The names of all calls that were read.
fn names<'w>(worked: &'w Worked) -> impl Iterator<Item = &'w [u8]> {
    worked.records.iter().filter_map(|record| match record {
        Record::Call { signature, .. } => Some(signature.name.text.as_bytes()),
        _ => None,
    })
}

/// The values of all matchers that were read.
fn values<'w>(worked: &'w Worked) -> impl Iterator<Item = &'w [u8]> {
    let matchers = worked.records.iter().flat_map(|record| match record {
        Record::Selector { matchers, .. } => matchers.as_slice(),
        _ => &[],
    });
    matchers.map(|matcher| matcher.value.text.as_bytes())
}

/// Ends the program at a difference, so that libFuzzer keeps the page.
///
/// # Safety
///
/// So many bytes lie at `start`.
#[no_mangle]
pub unsafe extern "C" fn LLVMFuzzerTestOneInput(start: *const u8, length: usize) -> c_int {
    let page: &[u8] = match length {
        0 => &[],
        // SAFETY: libFuzzer lends so many bytes.
        _ => unsafe { std::slice::from_raw_parts(start, length) },
    };
    if let Err(words) = compare(page) {
        eprintln!("a difference: {words}");
        std::process::abort();
    }
    0
}
