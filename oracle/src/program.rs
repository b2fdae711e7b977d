//! The program `sheet` held against the oracle: one run for each page, what it writes and how it ends.

use crate::answer::{self, Failure};
use crate::generate::limits;
use crate::{hex, kept};
use std::io::{self, Read, Write};
use std::process::{Child, Command, Stdio};
use std::thread;
use std::time::Duration;

/// Pages that the kept list has not: one of 100,000 bytes, far beyond the limit, and one whose text is longer than what the program lends.
const BEYOND: [&str; 2] = [limits::OVERLONG, "0278 61*120; 00 08*180;"];

/// Every so many pages one is sent in two pieces, and one without anyone to read the output.
const SPECIAL: usize = 50;

/// The kept list, which has pages of 8,192 and 8,193 bytes, and the pages beyond; their number, or the first difference.
pub fn compare(program: &str, words: &[&str]) -> Result<usize, String> {
    let entries = kept::entries().map_err(|failure| failure.0)?;
    let mut pages: Vec<Vec<u8>> = entries.into_iter().map(|entry| entry.0).collect();
    pages.extend(BEYOND.map(hex::bytes));
    for (index, page) in pages.iter().enumerate() {
        let mut command = Command::new(program);
        command.args(words);
        let pieces = if index % SPECIAL == 0 { 2 } else { 1 };
        compare_page(&mut command, page, pieces)?;
        if index % SPECIAL == 1 {
            closed(&mut command, page)?;
        }
    }
    Ok(pages.len())
}

fn compare_page(command: &mut Command, page: &[u8], pieces: usize) -> Result<(), String> {
    let expected = output(page).map_err(|failure| failure.0)?;
    let written = run(started(command)?, page, pieces).map_err(|error| error.to_string())?;
    if written != Ok(expected.clone()) {
        return Err(difference(page, &expected, &written));
    }
    Ok(())
}

fn started(command: &mut Command) -> Result<Child, String> {
    let child = command.stdin(Stdio::piped()).stdout(Stdio::piped()).spawn();
    child.map_err(|error| format!("{command:?}: {error}"))
}

/// What the program must write for a page.
pub fn output(page: &[u8]) -> Result<Vec<u8>, Failure> {
    Ok(answer::program_output(&answer::answer(page)?))
}

/// What the program wrote, or how it failed.
type Written = Result<Vec<u8>, String>;

fn run(mut child: Child, page: &[u8], pieces: usize) -> io::Result<Written> {
    let mut input = child.stdin.take().expect("the input is a pipe");
    let mut output = child.stdout.take().expect("the output is a pipe");
    let mut written = Vec::new();
    thread::scope(|scope| {
        scope.spawn(move || {
            for piece in page.chunks(page.len().div_ceil(pieces).max(1)) {
                // The program may stop reading after the limit; then the pipe is closed.
                let _ = input.write_all(piece);
                if pieces > 1 {
                    thread::sleep(Duration::from_millis(5));
                }
            }
        });
        output.read_to_end(&mut written)
    })?;
    let status = child.wait()?;
    Ok(match status.success() {
        true => Ok(written),
        false => Err(status.to_string()),
    })
}

/// With its output closed the program ends, by itself or by the signal of a broken pipe; what it says of that is not shown.
fn closed(command: &mut Command, page: &[u8]) -> Result<(), String> {
    use std::os::unix::process::ExitStatusExt;
    const SIGPIPE: i32 = 13;
    let mut child = started(command.stderr(Stdio::null()))?;
    drop(child.stdout.take());
    if let Some(mut input) = child.stdin.take() {
        // It may end before it has read all.
        let _ = input.write_all(page);
    }
    let status = child.wait().map_err(|error| error.to_string())?;
    match status.signal() {
        None | Some(SIGPIPE) => Ok(()),
        Some(_) => Err(format!(
            "with its output closed the program ends with {status}\npage: {}",
            hex::text(page)
        )),
    }
}

fn difference(page: &[u8], expected: &[u8], written: &Written) -> String {
    let written = match written {
        Ok(written) => String::from_utf8_lossy(written).into_owned(),
        Err(status) => status.clone(),
    };
    format!(
        "page: {}\nthe oracle: {}\nthe program: {written}",
        hex::text(page),
        String::from_utf8_lossy(expected)
    )
}
