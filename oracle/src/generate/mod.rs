//! Pages from a seed: good ones, planted faults, damaged copies, sizes at the limits, long texts, characters beyond
//! ASCII and ill-formed ones, fractions and what is none, patterns with right and wrong flags, @ and offset in either
//! order, calls of the function table and what is none, limitk and limit_ratio with parameters of every kind, calls
//! that two server generations judge differently, deep nesting, short and random bytes.

pub mod alphabet;
mod around;
mod call;
pub mod carriers;
pub mod codes;
pub mod counted_bytes;
mod damage;
mod expression;
pub mod fault;
pub mod fractions;
pub mod functions;
pub mod generations;
mod holders;
pub mod ill_formed;
pub mod limits;
pub mod long_texts;
pub mod nesting;
pub mod operators;
mod parts;
pub mod patterns;
mod scope;
pub mod stream;
mod texts;
pub mod times;
pub mod well_formed;

pub use damage::damaged;
pub use scope::Scope;

use crate::answer::Outcome;
use crate::functions::{table, Table};
use crate::page::record::{Kind, Record};
use crate::page::{write, MAX_PAGE_BYTES, MAX_RECORDS};
use crate::random::Random;

/// A page, and the outcome that it was made for: of document 01's check, or of one that document 02 adds.
pub struct Made {
    pub page: Vec<u8>,
    pub expected: Outcome,
}

impl Made {
    fn new(page: Vec<u8>, expected: Outcome) -> Self {
        Self { page, expected }
    }

    fn accepted(records: &[Record], kind: Kind) -> Self {
        Self::new(write::page(records), Outcome::Accepted(kind))
    }

    fn refused(page: Vec<u8>, number: u8, record: usize) -> Self {
        Self::new(page, Outcome::Refused { number, record })
    }
}

/// Records under construction; `room` bounds the length of the texts in them, and calls of a table are of `table`.
pub struct Generator<'r> {
    pub random: &'r mut Random,
    pub room: usize,
    pub scope: Scope,
    pub table: &'static Table,
}

pub type Records = Vec<Record<'static>>;

impl<'r> Generator<'r> {
    pub fn new(random: &'r mut Random, room: usize, scope: Scope) -> Self {
        Self {
            random,
            room,
            scope,
            table: table(),
        }
    }
}

/// A good page of exactly this many records, with the kind that it has.
pub fn good(random: &mut Random, scope: Scope, records: usize) -> (Vec<u8>, Kind) {
    let kind = *random.pick(&[
        Kind::Vector,
        Kind::Vector,
        Kind::Vector,
        Kind::Scalar,
        Kind::Matrix,
        Kind::String,
    ]);
    let records = records.clamp(1, MAX_RECORDS);
    loop {
        let room = match records {
            0..=6 if random.chance(5) => 255,
            0..=40 if random.chance(30) => 40,
            _ => 8,
        };
        let made = Generator::new(random, room, scope).expression(kind, records);
        let page = write::page(&made);
        if page.len() <= MAX_PAGE_BYTES {
            return (page, kind);
        }
    }
}

/// A page of the size that benchmarks use: a vector of this many records with texts of everyday length.
pub fn everyday(random: &mut Random, records: usize) -> Vec<u8> {
    loop {
        let made = Generator::new(random, 12, Scope::Base).expression(Kind::Vector, records);
        let page = write::page(&made);
        if page.len() <= MAX_PAGE_BYTES {
            return page;
        }
    }
}

/// Every byte string of at most two bytes.
pub fn shortest() -> impl Iterator<Item = Vec<u8>> {
    let none = std::iter::once(Vec::new());
    let one = (0..=255u8).map(|byte| vec![byte]);
    let two = (0..=u16::MAX).map(|both| both.to_be_bytes().to_vec());
    none.chain(one).chain(two)
}

/// Random bytes, mostly small ones, since those begin records.
pub fn bytes(random: &mut Random) -> Vec<u8> {
    let length = random.below(24);
    (0..length)
        .map(|_| {
            if random.chance(80) {
                random.byte() % 16
            } else {
                random.byte()
            }
        })
        .collect()
}
