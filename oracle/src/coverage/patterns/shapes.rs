//! The shapes of covered patterns, by their trees: which characters, what repeats stand behind, where sequences are
//! empty, and which parts of a choice or a sequence match empty text.

use super::super::Coverage;
use regex_syntax::ast::{Ast, Group, Repetition, RepetitionKind};

/// What an item is without its repeat.
const ITEMS: [&str; 6] = ["a letter", "a digit", "`_`", "`-`", "`.`", "brackets"];

/// What stands behind an item.
const REPEATS: [&str; 4] = ["no repeat", "`*`", "`+`", "`?`"];

#[rustfmt::skip]
const NAMED: &[&str] = &[
    "patterns: the empty pattern", "patterns: a capital letter", "patterns: brackets with nothing in them",
    "patterns: brackets in brackets", "patterns: a choice in brackets", "patterns: `+` behind what matches empty text",
    "patterns: `+` behind what does not", "patterns: a choice of empty sequences",
];

/// The parts of a choice, of which some are empty or match empty text; the parts of a sequence, of which some do not.
const PARTS: [&str; 5] = [
    "none",
    "all",
    "only the first",
    "only inner ones",
    "only the last",
];

const WHAT: [&str; 3] = [
    "choice: empty,",
    "choice: match empty text,",
    "sequence: do not match it,",
];

pub(super) fn classes() -> Vec<String> {
    let mut classes: Vec<String> = NAMED.iter().map(ToString::to_string).collect();
    for item in ITEMS {
        classes.extend(REPEATS.map(|repeat| repeated(item, repeat)));
    }
    for what in WHAT {
        classes.extend(PARTS.map(|which| parted(what, which)));
    }
    classes
}

fn repeated(item: &str, repeat: &str) -> String {
    format!("patterns: {item}, {repeat} behind it")
}

fn parted(what: &str, which: &str) -> String {
    format!("patterns: parts of a {what} {which}")
}

/// Which of several parts are so; other sets than these have no class.
fn which(are_so: &[bool]) -> Option<&'static str> {
    let last = are_so.len() - 1;
    let count = are_so.iter().filter(|is_so| **is_so).count();
    match (are_so[0], are_so[last]) {
        _ if count == 0 => Some(PARTS[0]),
        _ if count == are_so.len() => Some(PARTS[1]),
        (true, _) if count == 1 => Some(PARTS[2]),
        (false, false) => Some(PARTS[3]),
        (_, true) if count == 1 => Some(PARTS[4]),
        _ => None,
    }
}

impl Coverage {
    /// The classes of a whole pattern; whether it matches empty text.
    pub(super) fn shape(&mut self, tree: &Ast) -> bool {
        let is_empty = matches!(tree, Ast::Empty(_));
        self.hit_if(is_empty, "patterns: the empty pattern");
        self.matches_empty(tree)
    }

    /// The classes of a part of a pattern; whether it matches empty text.
    fn matches_empty(&mut self, tree: &Ast) -> bool {
        match tree {
            Ast::Empty(_) => true,
            Ast::Alternation(choice) => self.choice_shape(&choice.asts),
            Ast::Concat(sequence) => self.sequence_shape(&sequence.asts),
            Ast::Repetition(repeat) => self.repeat_shape(repeat),
            other => {
                self.hit(repeated(item(other), REPEATS[0]));
                self.item_shape(other)
            }
        }
    }

    fn choice_shape(&mut self, sequences: &[Ast]) -> bool {
        let is_empty = |sequence: &Ast| matches!(sequence, Ast::Empty(_));
        let empty: Vec<bool> = sequences.iter().map(is_empty).collect();
        self.parts(WHAT[0], &empty);
        let is_all = empty.iter().all(|is_empty| *is_empty);
        self.hit_if(is_all, "patterns: a choice of empty sequences");
        let matching: Vec<bool> = sequences
            .iter()
            .map(|sequence| self.matches_empty(sequence))
            .collect();
        self.parts(WHAT[1], &matching);
        matching.contains(&true)
    }

    fn sequence_shape(&mut self, items: &[Ast]) -> bool {
        let not_matching: Vec<bool> = items.iter().map(|item| !self.matches_empty(item)).collect();
        self.parts(WHAT[2], &not_matching);
        !not_matching.contains(&true)
    }

    fn parts(&mut self, what: &str, are_so: &[bool]) {
        if let Some(which) = which(are_so) {
            self.hit(parted(what, which));
        }
    }

    fn repeat_shape(&mut self, repeat: &Repetition) -> bool {
        let matches = self.item_shape(&repeat.ast);
        let (words, is_left_out) = match repeat.op.kind {
            RepetitionKind::ZeroOrMore => (REPEATS[1], true),
            RepetitionKind::OneOrMore => (REPEATS[2], false),
            _ => (REPEATS[3], true),
        };
        self.hit(repeated(item(&repeat.ast), words));
        if !is_left_out {
            self.hit(
                [
                    "patterns: `+` behind what does not",
                    "patterns: `+` behind what matches empty text",
                ][usize::from(matches)],
            );
        }
        is_left_out || matches
    }

    /// An item without its repeat.
    fn item_shape(&mut self, tree: &Ast) -> bool {
        match tree {
            Ast::Group(group) => self.brackets_shape(group),
            Ast::Literal(literal) => {
                let is_capital = literal.c.is_ascii_uppercase();
                self.hit_if(is_capital, "patterns: a capital letter");
                false
            }
            _ => false,
        }
    }

    fn brackets_shape(&mut self, group: &Group) -> bool {
        match &*group.ast {
            Ast::Empty(_) => self.hit("patterns: brackets with nothing in them"),
            Ast::Alternation(_) => self.hit("patterns: a choice in brackets"),
            Ast::Group(_) => self.hit("patterns: brackets in brackets"),
            _ => {}
        }
        self.matches_empty(&group.ast)
    }
}

/// The name of an item without its repeat.
fn item(tree: &Ast) -> &'static str {
    match tree {
        Ast::Literal(literal) => match literal.c {
            '0'..='9' => ITEMS[1],
            '_' => ITEMS[2],
            '-' => ITEMS[3],
            _ => ITEMS[0],
        },
        Ast::Dot(_) => ITEMS[4],
        _ => ITEMS[5],
    }
}
