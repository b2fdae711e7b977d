//! Stands in for the crate `cfgrammar`: the one name that the lexer mentions.

#[derive(Default)]
pub struct NewlineCache;

impl NewlineCache {
    pub fn new() -> Self {
        Self
    }
}
