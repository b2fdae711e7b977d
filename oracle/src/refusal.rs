//! The Rust's messages and the refusal numbers of document 01: each message belongs to one check of one record.

/// The flag of a covered pattern is wrong (document 02, No. 7). The Rust has no flag, and so no message.
pub const WRONG_FLAG: u8 = 41;

/// A call's name is not in the function table (document 02, No. 2): of the check with the table, and of signatures.
pub const UNKNOWN_FUNCTION: u8 = 37;

/// A call's signature is unlike the function table's (document 02, No. 2): of the check with the table alone.
pub const UNLIKE_SIGNATURE: u8 = 38;

/// The parameter of limitk or limit_ratio is no scalar (document 02, No. 8): of the check that follows the operators
/// document alone. The Rust takes any kind there, and so has no message.
pub const LIMIT_PARAMETER: u8 = 42;

/// The numbers of document 01's calls: its own, and what document 02 has added to them so far.
pub fn of_calls() -> impl Iterator<Item = u8> {
    (1..=34).chain([WRONG_FLAG])
}

/// The numbers of the check with the function table, 37 and 38 behind the others. 5 is for buffers; 29 cannot arise,
/// since the table's functions without kinds are fixed, so that their arguments give 26.
pub fn of_table_check() -> impl Iterator<Item = u8> {
    let of_check = of_calls().filter(|number| !matches!(number, 5 | 29));
    of_check.chain([UNKNOWN_FUNCTION, UNLIKE_SIGNATURE])
}

/// The numbers of the check that follows the operators document, 42 behind the others. 5 is for buffers.
pub fn of_operators_check() -> impl Iterator<Item = u8> {
    let of_check = of_calls().filter(|number| *number != 5);
    of_check.chain([LIMIT_PARAMETER])
}

/// All numbers that there are, ascending.
pub fn numbers() -> impl Iterator<Item = u8> {
    let added = [
        UNKNOWN_FUNCTION,
        UNLIKE_SIGNATURE,
        WRONG_FLAG,
        LIMIT_PARAMETER,
    ];
    (1..=34).chain(added)
}

/// Where a message came from: a record's constructor, or `check_ast` of what it built.
#[derive(Debug, Clone, Copy, PartialEq, Eq)]
pub enum Stage {
    Constructor,
    Check,
}

struct Row {
    number: u8,
    stage: Stage,
    /// The kind of the record.
    record: u8,
    begins: &'static str,
    holds: &'static str,
}

const fn built(number: u8, record: u8, begins: &'static str) -> Row {
    Row {
        number,
        stage: Stage::Constructor,
        record,
        begins,
        holds: "",
    }
}

const fn checked(number: u8, record: u8, begins: &'static str, holds: &'static str) -> Row {
    Row {
        number,
        stage: Stage::Check,
        record,
        begins,
        holds,
    }
}

const ROWS: &[Row] = &[
    built(
        6,
        7,
        "unary expression only allowed on expressions of type scalar or vector, got: ",
    ),
    built(7, 3, "no offset modifiers allowed before range"),
    built(8, 3, "no @ modifiers allowed before range"),
    built(9, 3, "ranges only allowed for vector selectors"),
    built(10, 5, "@ <timestamp> may not be set multiple times"),
    built(11, 5, "@ modifier must be preceded by "),
    built(12, 6, "offset may not be set multiple times"),
    built(13, 6, "offset modifier must be preceded by "),
    built(14, 10, "no arguments for aggregate expression "),
    built(
        15,
        10,
        "wrong number of arguments for aggregate expression ",
    ),
    checked(16, 9, "binary expression does not support operator ", ""),
    checked(
        17,
        9,
        "bool modifier can only be used on comparison operators",
        "",
    ),
    checked(
        18,
        9,
        "comparisons between scalars must use BOOL modifier",
        "",
    ),
    checked(
        19,
        9,
        "label '",
        "' must not occur in ON and GROUP clause at once",
    ),
    checked(
        20,
        9,
        "set operator ",
        " not allowed in binary scalar expression",
    ),
    checked(21, 9, "no grouping allowed for ", " operation"),
    checked(
        22,
        9,
        "binary expression must contain only scalar and instant vector types",
        "",
    ),
    checked(23, 9, "vector matching only allowed between vectors", ""),
    checked(
        24,
        10,
        "aggregation operator expected in aggregation expression ",
        "",
    ),
    checked(25, 10, "expected type ", " in aggregation expression, got "),
    checked(27, 11, "expected at least ", " argument(s) in call to "),
    checked(28, 11, "expected at most ", " argument(s) in call to "),
    checked(30, 11, "expected type ", " in call to function "),
    checked(26, 11, "expected ", " argument(s) in call to "),
    checked(
        31,
        7,
        "unary expression only allowed on expressions of type scalar or vector, got ",
        "",
    ),
    checked(32, 4, "subquery is only allowed on vector, got ", ""),
    checked(33, 2, "metric name must not be set twice: ", ""),
    checked(
        34,
        2,
        "vector selector must contain at least one non-empty matcher",
        "",
    ),
];

/// The number of the check that gave the message, or nothing for a message that no row foresees.
pub fn of_message(stage: Stage, record: u8, message: &str) -> Option<u8> {
    ROWS.iter()
        .find(|row| {
            row.stage == stage
                && row.record == record
                && message.starts_with(row.begins)
                && message.contains(row.holds)
        })
        .map(|row| row.number)
}

/// 29: `arg_types.len() - 1` without declared kinds. A release build wraps and indexes, a debug build stops at once.
pub fn of_panic(stage: Stage, record: u8, message: &str) -> Option<u8> {
    let is_foreseen = message.starts_with("index out of bounds: the len is 0 ")
        || message == "attempt to subtract with overflow";
    (stage == Stage::Check && record == 11 && is_foreseen).then_some(29)
}
