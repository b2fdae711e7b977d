//! Stands in for the crate `lrlex`: the token constants, which the published files do not hold, and the lexer's names.
//! The constants are numbered in the order of `token_display`, so that the range tests of `TokenType` hold.

use cfgrammar::NewlineCache;
use lrpar::Lexeme;
use std::marker::PhantomData;

pub struct DefaultLexeme<TokenId>(PhantomData<TokenId>);

impl<TokenId> Lexeme<TokenId> for DefaultLexeme<TokenId> {
    fn new(_token: TokenId, _start: usize, _length: usize) -> Self {
        Self(PhantomData)
    }
}

pub struct DefaultLexerTypes<TokenId>(PhantomData<TokenId>);

pub struct LRNonStreamingLexer<'lexer, 'input, Types>(PhantomData<(&'lexer Types, &'input str)>);

impl<'input, TokenId> LRNonStreamingLexer<'_, 'input, DefaultLexerTypes<TokenId>> {
    pub fn new(
        _input: &'input str,
        _lexemes: Vec<Result<DefaultLexeme<TokenId>, String>>,
        _lines: NewlineCache,
    ) -> Self {
        Self(PhantomData)
    }
}

#[macro_export]
macro_rules! lrlex_mod {
    ("token_map") => {
        pub mod token_map {
            pub const T_EQL: u16 = 1;
            pub const T_BLANK: u16 = 2;
            pub const T_COLON: u16 = 3;
            pub const T_COMMA: u16 = 4;
            pub const T_COMMENT: u16 = 5;
            pub const T_DURATION: u16 = 6;
            pub const T_EOF: u16 = 7;
            pub const T_ERROR: u16 = 8;
            pub const T_IDENTIFIER: u16 = 9;
            pub const T_LEFT_BRACE: u16 = 10;
            pub const T_LEFT_BRACKET: u16 = 11;
            pub const T_LEFT_PAREN: u16 = 12;
            pub const T_OPEN_HIST: u16 = 13;
            pub const T_CLOSE_HIST: u16 = 14;
            pub const T_METRIC_IDENTIFIER: u16 = 15;
            pub const T_NUMBER: u16 = 16;
            pub const T_RIGHT_BRACE: u16 = 17;
            pub const T_RIGHT_BRACKET: u16 = 18;
            pub const T_RIGHT_PAREN: u16 = 19;
            pub const T_SEMICOLON: u16 = 20;
            pub const T_SPACE: u16 = 21;
            pub const T_STRING: u16 = 22;
            pub const T_TIMES: u16 = 23;
            pub const T_OPERATORS_START: u16 = 24;
            pub const T_ADD: u16 = 25;
            pub const T_DIV: u16 = 26;
            pub const T_EQLC: u16 = 27;
            pub const T_EQL_REGEX: u16 = 28;
            pub const T_GTE: u16 = 29;
            pub const T_GTR: u16 = 30;
            pub const T_LAND: u16 = 31;
            pub const T_LOR: u16 = 32;
            pub const T_LSS: u16 = 33;
            pub const T_LTE: u16 = 34;
            pub const T_LUNLESS: u16 = 35;
            pub const T_MOD: u16 = 36;
            pub const T_MUL: u16 = 37;
            pub const T_NEQ: u16 = 38;
            pub const T_NEQ_REGEX: u16 = 39;
            pub const T_POW: u16 = 40;
            pub const T_SUB: u16 = 41;
            pub const T_AT: u16 = 42;
            pub const T_ATAN2: u16 = 43;
            pub const T_OPERATORS_END: u16 = 44;
            pub const T_AGGREGATORS_START: u16 = 45;
            pub const T_AVG: u16 = 46;
            pub const T_BOTTOMK: u16 = 47;
            pub const T_COUNT: u16 = 48;
            pub const T_COUNT_VALUES: u16 = 49;
            pub const T_GROUP: u16 = 50;
            pub const T_MAX: u16 = 51;
            pub const T_MIN: u16 = 52;
            pub const T_QUANTILE: u16 = 53;
            pub const T_STDDEV: u16 = 54;
            pub const T_STDVAR: u16 = 55;
            pub const T_SUM: u16 = 56;
            pub const T_TOPK: u16 = 57;
            pub const T_LIMITK: u16 = 58;
            pub const T_LIMIT_RATIO: u16 = 59;
            pub const T_AGGREGATORS_END: u16 = 60;
            pub const T_KEYWORDS_START: u16 = 61;
            pub const T_BOOL: u16 = 62;
            pub const T_BY: u16 = 63;
            pub const T_GROUP_LEFT: u16 = 64;
            pub const T_GROUP_RIGHT: u16 = 65;
            pub const T_IGNORING: u16 = 66;
            pub const T_OFFSET: u16 = 67;
            pub const T_SMOOTHED: u16 = 68;
            pub const T_ANCHORED: u16 = 69;
            pub const T_ON: u16 = 70;
            pub const T_WITHOUT: u16 = 71;
            pub const T_FILL: u16 = 72;
            pub const T_FILL_LEFT: u16 = 73;
            pub const T_FILL_RIGHT: u16 = 74;
            pub const T_KEYWORDS_END: u16 = 75;
            pub const T_PREPROCESSOR_START: u16 = 76;
            pub const T_START: u16 = 77;
            pub const T_END: u16 = 78;
            pub const T_STEP: u16 = 79;
            pub const T_PREPROCESSOR_END: u16 = 80;
            pub const T_STARTSYMBOLS_START: u16 = 81;
            pub const T_START_METRIC: u16 = 82;
            pub const T_START_SERIES_DESCRIPTION: u16 = 83;
            pub const T_START_EXPRESSION: u16 = 84;
            pub const T_START_METRIC_SELECTOR: u16 = 85;
            pub const T_STARTSYMBOLS_END: u16 = 86;
        }
    };
}
