//! Steps of the Rust run under guard: a message or a panic becomes a refusal number, or a failure of the oracle.

use crate::refusal::{self, Stage};
use promql_parser::parser::Expr;
use std::cell::Cell;
use std::panic::{self, AssertUnwindSafe};
use std::sync::Once;

/// What ends a record other than by building an expression.
#[derive(Debug, Clone, PartialEq)]
pub enum Stop {
    Refused {
        number: u8,
        message: String,
    },
    /// A message or a panic that no row foresees: the oracle has failed, not the page.
    Unforeseen(String),
}

/// Runs one step of the Rust and turns its message or panic into a refusal number.
pub fn guarded(
    stage: Stage,
    record: u8,
    step: impl FnOnce() -> Result<Expr, String>,
) -> Result<Expr, Stop> {
    let (number, message) = match quietly(step) {
        Ok(Ok(expr)) => return Ok(expr),
        Ok(Err(message)) => (refusal::of_message(stage, record, &message), message),
        Err(message) => (refusal::of_panic(stage, record, &message), message),
    };
    Err(match number {
        Some(number) => Stop::Refused { number, message },
        None => Stop::Unforeseen(format!("{stage:?} of record kind {record}: {message}")),
    })
}

thread_local! {
    static IS_QUIET: Cell<bool> = const { Cell::new(false) };
}

/// Runs a step; a panic gives its message and prints nothing.
fn quietly<T>(step: impl FnOnce() -> T) -> Result<T, String> {
    static HOOK: Once = Once::new();
    HOOK.call_once(|| {
        let loud = panic::take_hook();
        panic::set_hook(Box::new(move |info| {
            if !IS_QUIET.get() {
                loud(info);
            }
        }));
    });
    IS_QUIET.set(true);
    let result = panic::catch_unwind(AssertUnwindSafe(step));
    IS_QUIET.set(false);
    result.map_err(|payload| match payload.downcast::<String>() {
        Ok(message) => *message,
        Err(payload) => payload
            .downcast_ref::<&str>()
            .map_or("a panic without words".into(), |words| words.to_string()),
    })
}
