//! Which patterns are covered (document 02, No. 7), by the tree that the Rust's own regex reads them as; and what the
//! library's call says of a pattern. `uncovered` says the same by a reading of its own.

use crate::page::MAX_TEXT_BYTES;
use crate::tree;
use regex_syntax::ast::parse::ParserBuilder;
use regex_syntax::ast::{Ast, GroupKind, Literal, LiteralKind, RepetitionKind};

pub fn is_covered(pattern: &str) -> bool {
    read(pattern).is_some()
}

/// The tree of a covered pattern. One of more than 255 bytes is none: no matcher can hold it.
pub fn read(pattern: &str) -> Option<Ast> {
    if pattern.len() as u64 > MAX_TEXT_BYTES {
        return None;
    }
    // Every level of a tree has a byte of its own.
    let levels = MAX_TEXT_BYTES as u32;
    let parsed = ParserBuilder::new()
        .nest_limit(levels)
        .build()
        .parse(pattern);
    parsed.ok().filter(is_choice)
}

/// "A choice is made of sequences."
fn is_choice(tree: &Ast) -> bool {
    match tree {
        Ast::Alternation(choice) => choice.asts.iter().all(is_sequence),
        _ => is_sequence(tree),
    }
}

/// "A sequence of items"; "empty sequences are allowed".
fn is_sequence(tree: &Ast) -> bool {
    match tree {
        Ast::Empty(_) => true,
        Ast::Concat(sequence) => sequence.asts.iter().all(is_item),
        _ => is_item(tree),
    }
}

/// "At most one of `*`, `+`, `?` after an item": one that is not greedy is written with two.
fn is_item(tree: &Ast) -> bool {
    match tree {
        Ast::Repetition(repeat) => {
            let is_one = !matches!(repeat.op.kind, RepetitionKind::Range(_)) && repeat.greedy;
            is_one && is_unrepeated(&repeat.ast)
        }
        _ => is_unrepeated(tree),
    }
}

/// One of the characters, or round brackets: "an item may hold a choice".
fn is_unrepeated(tree: &Ast) -> bool {
    match tree {
        Ast::Dot(_) => true,
        Ast::Literal(literal) => is_single(literal),
        Ast::Group(group) => {
            let is_plain = matches!(group.kind, GroupKind::CaptureIndex(_));
            is_plain && is_choice(&group.ast)
        }
        _ => false,
    }
}

/// "Letters, digits, `_`, `-`", written as they are.
fn is_single(literal: &Literal) -> bool {
    let is_listed = literal.c.is_ascii_alphanumeric() || matches!(literal.c, '_' | '-');
    literal.kind == LiteralKind::Verbatim && is_listed
}

/// Whether a covered pattern matches empty text, as the Rust's regex says; nothing for other patterns.
pub fn matches_empty(pattern: &[u8]) -> Option<bool> {
    let pattern = std::str::from_utf8(pattern).ok()?;
    is_covered(pattern)
        .then(|| tree::matches_empty(pattern).expect("a covered pattern is taken by the regex"))
}

/// What `sandzguli_pattern` answers: 0 or 1 for a covered pattern that does not match empty text or does, else 2.
pub fn word(pattern: &[u8]) -> u64 {
    matches_empty(pattern).map_or(2, u64::from)
}
