//! A library that answers by the oracle itself, whole or with one planted fault.

pub mod copies;
pub mod flags;
pub mod fraction_texts;
pub mod fractions;
pub mod functions;
pub mod generations;
pub mod operators;
pub mod patterns;
pub mod straying;
pub mod texts;

use compare::library::Library;
use oracle::answer::{self, Answer, Outcome, Worked};
use oracle::{covered, functions as table};
use std::cell::RefCell;

pub fn whole() -> Library {
    Library {
        check,
        check_table,
        check_operators,
        check_older,
        check_newer,
        generations: which_generations,
        joint_label,
        copy,
        canonical,
        split,
        pattern,
        signature,
    }
}

/// Libraries with one fault each: words for the fault, how the difference begins, the library.
#[rustfmt::skip]
pub fn faulty() -> Vec<(&'static str, &'static str, Library)> {
    let whole = whole();
    vec![
        ("a record index one off", "check,", Library { check: check_late, ..whole }),
        ("7 and 8 swapped", "check,", Library { check: check_swapped, ..whole }),
        ("a label that starts one early", "joint_label,", Library { joint_label: label_early, ..whole }),
        ("a label where there is none", "joint_label,", Library { joint_label: label_always, ..whole }),
        ("5 with room for exactly the text", "copy,", Library { copy: copy_stingy, ..whole }),
        ("5 where the page is refused", "copy,", Library { copy: copy_hasty, ..whole }),
        ("one byte after the text", "beside the text", Library { canonical: canonical_more, ..whole }),
        ("a length and no text", "byte 0 of the text", Library { canonical: canonical_idle, ..whole }),
        ("the last byte another", "of the text is another", Library { split: split_wrong, ..whole }),
        ("a part of the text, then 5", "beside the text", Library { split: split_partial, ..whole }),
        ("5 with the index of the copy", "copy,", Library { copy: copy_miscounting, ..whole }),
    ]
}

fn slice<'a>(start: *const u8, length: usize) -> &'a [u8] {
    // SAFETY: the comparison lends so many bytes.
    unsafe { std::slice::from_raw_parts(start, length) }
}

fn buffer<'a>(start: *mut u8, length: usize) -> &'a mut [u8] {
    // SAFETY: the comparison lends so many bytes.
    unsafe { std::slice::from_raw_parts_mut(start, length) }
}

/// The oracle's answer. That to the last page is kept, since all calls are asked about a page one after the other.
fn answer(page: *const u8, length: usize) -> Answer {
    thread_local! {
        static LAST: RefCell<Option<(Vec<u8>, Answer)>> = const { RefCell::new(None) };
    }
    let page = slice(page, length);
    LAST.with_borrow_mut(|last| match last {
        Some((kept, answer)) if kept == page => answer.clone(),
        _ => {
            let answer = answer::answer(page).expect("the Rust is foreseen");
            *last = Some((page.to_vec(), answer.clone()));
            answer
        }
    })
}

fn worked<'a>(page: *const u8, length: usize) -> Worked<'a> {
    answer::work(slice(page, length)).expect("the Rust is foreseen")
}

fn refused(number: u8, record: usize) -> Outcome {
    Outcome::Refused { number, record }
}

fn is_accepted(answer: &Answer) -> bool {
    matches!(answer.outcome, Outcome::Accepted(_))
}

/// Writes the text and answers as document 01 says.
fn write(answer: &Answer, text: &[u8], out: &mut [u8]) -> u64 {
    let outcome = answer.outcome_lent(text, out.len());
    if let Outcome::Accepted(_) = outcome {
        out[..text.len()].copy_from_slice(text);
    }
    outcome.word(text.len())
}

extern "C" fn check(page: *const u8, length: usize) -> u64 {
    answer(page, length).outcome.word(0)
}

extern "C" fn check_table(page: *const u8, length: usize) -> u64 {
    answer(page, length).table.word(0)
}

extern "C" fn check_operators(page: *const u8, length: usize) -> u64 {
    answer(page, length).operators.word(0)
}

extern "C" fn check_older(page: *const u8, length: usize) -> u64 {
    answer(page, length).older.word(0)
}

extern "C" fn check_newer(page: *const u8, length: usize) -> u64 {
    answer(page, length).newer.word(0)
}

extern "C" fn which_generations(page: *const u8, length: usize) -> u64 {
    answer(page, length).generations().word()
}

extern "C" fn joint_label(page: *const u8, length: usize) -> u64 {
    answer(page, length).label.map_or(0, |part| part.word())
}

extern "C" fn copy(page: *const u8, length: usize, out: *mut u8, out_length: usize) -> u64 {
    let answer = answer(page, length);
    write(&answer, &answer.copy, buffer(out, out_length))
}

extern "C" fn canonical(page: *const u8, length: usize, out: *mut u8, out_length: usize) -> u64 {
    let answer = answer(page, length);
    write(&answer, &answer.canonical, buffer(out, out_length))
}

extern "C" fn split(page: *const u8, length: usize, out: *mut u8, out_length: usize) -> u64 {
    let answer = answer(page, length);
    write(&answer, &answer.split, buffer(out, out_length))
}

extern "C" fn pattern(pattern: *const u8, length: usize) -> u64 {
    covered::word(slice(pattern, length))
}

extern "C" fn signature(name: *const u8, length: usize, out: *mut u8, out_length: usize) -> u64 {
    let (word, written) = table::answer(slice(name, length), out_length);
    buffer(out, out_length)[..written.len()].copy_from_slice(&written);
    word
}

extern "C" fn check_late(page: *const u8, length: usize) -> u64 {
    let word = check(page, length);
    word + (word >> 63)
}

extern "C" fn check_swapped(page: *const u8, length: usize) -> u64 {
    match answer(page, length).outcome {
        Outcome::Refused {
            number: number @ (7 | 8),
            record,
        } => Outcome::Refused {
            number: 15 - number,
            record,
        }
        .word(0),
        outcome => outcome.word(0),
    }
}

extern "C" fn label_early(page: *const u8, length: usize) -> u64 {
    joint_label(page, length).saturating_sub(256)
}

extern "C" fn label_always(page: *const u8, length: usize) -> u64 {
    joint_label(page, length).max(256)
}

extern "C" fn copy_stingy(page: *const u8, length: usize, out: *mut u8, out_length: usize) -> u64 {
    copy(page, length, out, out_length.saturating_sub(1))
}

extern "C" fn copy_hasty(page: *const u8, length: usize, out: *mut u8, out_length: usize) -> u64 {
    match answer(page, length) {
        answer if !is_accepted(&answer) && out_length == 0 => Outcome::Refused {
            number: 5,
            record: answer.records,
        }
        .word(0),
        _ => copy(page, length, out, out_length),
    }
}

extern "C" fn canonical_more(
    page: *const u8,
    length: usize,
    out: *mut u8,
    out_length: usize,
) -> u64 {
    let word = canonical(page, length, out, out_length);
    if let Some(byte) = buffer(out, out_length).get_mut((word >> 2) as usize) {
        *byte = !*byte;
    }
    word
}

extern "C" fn canonical_idle(
    page: *const u8,
    length: usize,
    out: *mut u8,
    out_length: usize,
) -> u64 {
    let answer = answer(page, length);
    let kept = buffer(out, out_length).to_vec();
    let word = write(&answer, &answer.canonical, buffer(out, out_length));
    buffer(out, out_length).copy_from_slice(&kept);
    word
}

extern "C" fn split_wrong(page: *const u8, length: usize, out: *mut u8, out_length: usize) -> u64 {
    let mut answer = answer(page, length);
    if let Some(byte) = answer.split.last_mut() {
        *byte ^= 1;
    }
    write(&answer, &answer.split, buffer(out, out_length))
}

extern "C" fn split_partial(
    page: *const u8,
    length: usize,
    out: *mut u8,
    out_length: usize,
) -> u64 {
    let answer = answer(page, length);
    let out = buffer(out, out_length);
    let word = write(&answer, &answer.split, out);
    if is_accepted(&answer) && answer.split.len() > out.len() {
        out.copy_from_slice(&answer.split[..out_length]);
    }
    word
}

extern "C" fn copy_miscounting(
    page: *const u8,
    length: usize,
    out: *mut u8,
    out_length: usize,
) -> u64 {
    let mut answer = answer(page, length);
    if is_accepted(&answer) {
        answer.records = answer::answer(&answer.copy).map_or(0, |copied| copied.records);
    }
    write(&answer, &answer.copy, buffer(out, out_length))
}
