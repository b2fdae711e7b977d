//! Stands in for the crate `lrpar`: the one trait that the lexer mentions.

pub trait Lexeme<TokenId> {
    fn new(token: TokenId, start: usize, length: usize) -> Self;
}
