//! The program `sheet` while a read fails: it writes what the whole page asks for, or nothing but that the input cannot
//! be read. A page is sent in pieces, each a packet of a pipe, so that a read gets one piece however long it takes.
//! strace lets each read fail in turn, with the error of an input that has no bytes yet.

use crate::{hex, program};
use std::ffi::c_int;
use std::fs::File;
use std::io::{self, Write};
use std::os::fd::{FromRawFd, OwnedFd};
use std::process::{Command, Output, Stdio};

/// Pages in pieces of at most 4,096 bytes. Most ask for something else where a piece ends. The last two have 8,192
/// bytes, as many as a page may have, and one more.
#[rustfmt::skip]
const PAGES: &[&[&str]] = &[
    &[],
    &["0202757000"],
    &["02", "02", "75", "70", "00"],
    &["0202757000", "07"],
    &["0202757000", "03e0a712", "0b04726174650102000001"],
    &["0202757000", "000001", "090100", "08"],
    &["0202757000", "0202757000"],
    &["(023b 61*59; 00)*3; (023a 61*58; 00)*61;", "(023a 61*58; 00)*64;", "(090600)*127;"],
    &["(023b 61*59; 00)*4; (023a 61*58; 00)*60;", "(023a 61*58; 00)*64;", "(090600)*127;"],
];

/// What the program says of such an input, after its name.
const UNREADABLE: &str = "the input cannot be read";

/// What was run without a fault.
#[derive(Debug, Default, PartialEq)]
pub struct Tally {
    pub pages: usize,
    pub runs: usize,
    /// The runs in which the program said that the input cannot be read.
    pub unreadable: usize,
}

/// How a run ended well.
#[derive(Debug, PartialEq)]
enum Ended {
    /// No read failed, and the page was written.
    Undisturbed,
    /// A read of the loader failed, so that the program did not start.
    NotStarted,
    /// A read failed, and the whole page was written all the same.
    Written,
    Unreadable,
}

/// Each page with each read failing in turn: what was run, or the first fault.
pub fn compare(program: &str, words: &[&str]) -> Result<Tally, String> {
    let mut tally = Tally::default();
    for pieces in PAGES {
        let pieces: Vec<_> = pieces.iter().map(|piece| hex::bytes(piece)).collect();
        let page = hex::text(&pieces.concat());
        compare_page(&pieces, program, words, &mut tally)
            .map_err(|fault| format!("page: {page}\n{fault}"))?;
    }
    Ok(tally)
}

fn compare_page(
    pieces: &[Vec<u8>],
    program: &str,
    words: &[&str],
    tally: &mut Tally,
) -> Result<(), String> {
    let expected = program::output(&pieces.concat()).map_err(|failure| failure.0)?;
    let before = tally.unreadable;
    for place in 1.. {
        let mut command = failing(place, program, words);
        let output = run(&mut command, pieces).map_err(|error| format!("strace: {error}"))?;
        let ended = judged(
            &expected,
            &output.stdout,
            &String::from_utf8_lossy(&output.stderr),
        );
        tally.runs += 1;
        match ended.map_err(|fault| format!("read {place} fails: {fault}"))? {
            Ended::Undisturbed => break,
            Ended::Unreadable => tally.unreadable += 1,
            Ended::NotStarted | Ended::Written => {}
        }
    }
    if tally.unreadable == before {
        return Err("no failed read was seen".into());
    }
    tally.pages += 1;
    Ok(())
}

/// The program with its read at this place failing, the loader's counted too; strace tells of reads on standard error.
fn failing(place: usize, program: &str, words: &[&str]) -> Command {
    let mut command = Command::new("strace");
    command.args(["-e", "trace=read", "-e"]);
    command.arg(format!("inject=read:error=EAGAIN:when={place}"));
    command.arg(program).args(words);
    command
}

fn run(command: &mut Command, pieces: &[Vec<u8>]) -> io::Result<Output> {
    command.stdin(Stdio::from(packets(pieces)?)).output()
}

extern "C" {
    fn pipe2(ends: *mut c_int, flags: c_int) -> c_int;
}

/// The end of a pipe that holds the pieces, of which each read gets one.
fn packets(pieces: &[Vec<u8>]) -> io::Result<OwnedFd> {
    const O_DIRECT: c_int = 0x4000;
    const O_CLOEXEC: c_int = 0x80000;
    let mut ends = [0; 2];
    // SAFETY: two numbers are written there.
    if unsafe { pipe2(ends.as_mut_ptr(), O_DIRECT | O_CLOEXEC) } != 0 {
        return Err(io::Error::last_os_error());
    }
    // SAFETY: the pipe is new, and no one else has its ends.
    let (output, mut input) =
        unsafe { (OwnedFd::from_raw_fd(ends[0]), File::from_raw_fd(ends[1])) };
    for piece in pieces {
        input.write_all(piece)?;
    }
    Ok(output)
}

/// What the program wrote, and what it and strace said.
fn judged(expected: &[u8], written: &[u8], said: &str) -> Result<Ended, String> {
    let failed = said.lines().find(|line| line.ends_with("(INJECTED)"));
    let is_of_input = failed.is_some_and(|read| read.starts_with("read(0, "));
    let is_unreadable = said.contains(UNREADABLE);
    match failed {
        None if written == expected && !is_unreadable => Ok(Ended::Undisturbed),
        Some(_) if written == expected && !is_unreadable => Ok(Ended::Written),
        Some(_) if written.is_empty() && !is_of_input => Ok(Ended::NotStarted),
        Some(_) if written.is_empty() && is_unreadable => Ok(Ended::Unreadable),
        _ => Err(format!(
            "the program writes {:?}, the oracle {:?}; said is\n{said}",
            String::from_utf8_lossy(written),
            String::from_utf8_lossy(expected)
        )),
    }
}

#[cfg(test)]
mod tests {
    use super::*;

    const OF_INPUT: &str =
        "read(0, 0x7ffc, 4096) = -1 EAGAIN (Resource temporarily unavailable) (INJECTED)\n";
    const OF_LOADER: &str =
        "read(3, 0x7ffc, 832) = -1 EAGAIN (Resource temporarily unavailable) (INJECTED)\n";

    #[test]
    fn the_whole_page_or_nothing_is_written() {
        let unreadable = format!("{OF_INPUT}sheet: {UNREADABLE}\n");
        let judged = |written: &str, said: &str| judged(b"-up\n", written.as_bytes(), said);
        assert_eq!(judged("-up\n", ""), Ok(Ended::Undisturbed));
        assert_eq!(judged("-up\n", OF_INPUT), Ok(Ended::Written));
        assert_eq!(judged("", OF_LOADER), Ok(Ended::NotStarted));
        assert_eq!(judged("", &unreadable), Ok(Ended::Unreadable));
        for (written, said) in [
            ("", ""),
            ("up\n", ""),
            ("", OF_INPUT),
            ("up\n", OF_INPUT),
            ("up\n", OF_LOADER),
            ("up\n", &unreadable),
            ("-up\n", &unreadable),
        ] {
            assert!(judged(written, said).is_err(), "{written} {said}");
        }
    }
}
