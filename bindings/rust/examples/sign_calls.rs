//! Gives every call of a page (standard input) the signature that the function table has, and writes the page to
//! standard output. Nothing is written, and why is said, where a record cannot be read, the table lacks a function, or
//! the page is refused for something else:
//!
//!     cargo run --example sign_calls <page | ../../target/bin/sheet

use sandzguli::page::{Function, Page, Record};
use std::error::Error;
use std::io::{stdin, stdout, Read, Write};
use std::process::ExitCode;

/// The page that passes the check with the table.
fn signed(bytes: &[u8]) -> Result<Vec<u8>, Box<dyn Error>> {
    let mut page = Page::read(bytes)?;
    for record in &mut page.records {
        if let Record::Call { function, .. } = record {
            *function = Function::known(&function.name)?;
        }
    }
    let bytes = page.to_bytes();
    sandzguli::check_table(&bytes)?;
    Ok(bytes)
}

fn write_signed() -> Result<(), Box<dyn Error>> {
    let mut bytes = Vec::new();
    stdin().read_to_end(&mut bytes)?;
    stdout().write_all(&signed(&bytes)?)?;
    Ok(())
}

fn main() -> ExitCode {
    if let Err(error) = write_signed() {
        eprintln!("{error}");
        return ExitCode::FAILURE;
    }
    ExitCode::SUCCESS
}
