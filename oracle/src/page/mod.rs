//! The page of document 01: its records (`record`), their codes (`code`), numbers (`numbers`, each a `number`) and
//! texts (`texts`, by `text_kind`), how they are read (`read`) and written (`write`).

pub mod code;
pub mod number;
mod numbers;
pub mod read;
pub mod record;
pub mod text_kind;
mod texts;
pub mod write;

pub const MAX_PAGE_BYTES: usize = 8192;
pub const MAX_RECORDS: usize = 256;
pub const MAX_TEXT_BYTES: u64 = 255;
pub const MAX_LIST: u64 = 16;
pub const MAX_FUNCTION_NAME_BYTES: u64 = 64;
pub const MAX_AT_MILLISECONDS: u64 = 1_000_000_000_000_000;
pub const MAX_NUMBER: u64 = 1 << 53;
pub const MAX_UPPER: u64 = 16;
pub const MAX_DIGITS: u64 = 999_999_999_999_999;
pub const MAX_PLACES: u64 = 15;
