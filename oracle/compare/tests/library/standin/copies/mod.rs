//! Libraries that copy wrongly (document 02, No. 14): a fault each.

mod losses;
mod orders;

use super::fractions::records;
use super::{answer, buffer, is_accepted, slice, whole, write};
use compare::library::{Library, Writes};
use losses::LOSSES;
use oracle::page::record::Record;
use oracle::page::write as pages;
use oracle::times::Times;
use orders::{put_back, ORDERS};

/// Changes the records of the oracle's copy; the page's records are there too.
type Fault = for<'a> fn(&[Record<'a>], &mut Vec<Record<'a>>);

fn rewritten(
    (page, length): (*const u8, usize),
    (out, room): (*mut u8, usize),
    fault: Fault,
) -> u64 {
    let mut answer = answer(page, length);
    if is_accepted(&answer) {
        let mut copied = records(&answer.copy);
        fault(&records(slice(page, length)), &mut copied);
        answer.copy = pages::page(&copied);
    }
    write(&answer, &answer.copy, buffer(out, room))
}

extern "C" fn orders<const PLACE: usize>(
    page: *const u8,
    length: usize,
    out: *mut u8,
    room: usize,
) -> u64 {
    rewritten((page, length), (out, room), ORDERS[PLACE].1)
}

extern "C" fn loses<const PLACE: usize>(
    page: *const u8,
    length: usize,
    out: *mut u8,
    room: usize,
) -> u64 {
    rewritten((page, length), (out, room), LOSSES[PLACE].1)
}

/// Offset before @ wherever both are set.
extern "C" fn puts_offset_first(page: *const u8, length: usize, out: *mut u8, room: usize) -> u64 {
    rewritten((page, length), (out, room), |page, copied| {
        put_back(page, copied, |_, _, _, times| Times::BOTH.contains(&times));
    })
}

/// Canonical text for a copy.
extern "C" fn prints(page: *const u8, length: usize, out: *mut u8, room: usize) -> u64 {
    let answer = answer(page, length);
    write(&answer, &answer.canonical, buffer(out, room))
}

/// Writes what there is room for, then 5.
extern "C" fn writes_a_part(page: *const u8, length: usize, out: *mut u8, room: usize) -> u64 {
    let answer = answer(page, length);
    let out = buffer(out, room);
    let word = write(&answer, &answer.copy, out);
    if is_accepted(&answer) && answer.copy.len() > room {
        out.copy_from_slice(&answer.copy[..room]);
    }
    word
}

pub fn offset_first() -> Library {
    Library {
        copy: puts_offset_first,
        ..whole()
    }
}

fn named(words: &'static str, copy: Writes) -> (&'static str, Library) {
    (words, Library { copy, ..whole() })
}

/// Words for the fault, the library: @ and offset in a wrong order somewhere.
#[rustfmt::skip]
pub fn wrong_orders() -> impl Iterator<Item = (&'static str, Library)> {
    let copies: [Writes; 7] = [
        orders::<0>, orders::<1>, orders::<2>, orders::<3>, orders::<4>, orders::<5>, orders::<6>,
    ];
    ORDERS.into_iter().zip(copies).map(|((words, _), copy)| named(words, copy))
}

/// The same, and fields that are lost.
#[rustfmt::skip]
pub fn faulty() -> Vec<(&'static str, Library)> {
    let copies: [Writes; 20] = [
        loses::<0>, loses::<1>, loses::<2>, loses::<3>, loses::<4>, loses::<5>, loses::<6>, loses::<7>, loses::<8>,
        loses::<9>, loses::<10>, loses::<11>, loses::<12>, loses::<13>, loses::<14>, loses::<15>, loses::<16>,
        loses::<17>, loses::<18>, loses::<19>,
    ];
    let losses = LOSSES.into_iter().zip(copies).map(|((words, _), copy)| named(words, copy));
    let others = [named("canonical text", prints), named("a part of the copy, then 5", writes_a_part)];
    wrong_orders().chain(losses).chain(others).collect()
}
