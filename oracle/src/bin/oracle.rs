//! Command line of the oracle.
//!
//!     oracle answer HEX         what document 01 answers to a page
//!     oracle documents          what the functions documents of Prometheus show, and how it stands to the repository's
//!                               function table
//!     oracle run SEED ROUNDS    generated pages, and the classes that they reached
//!     oracle keep               writes the kept list again, and the answers of the added checks and about the function
//!                               table beside it
//!     oracle kept-pages FOLDER  writes each page of the kept list into a file of its own
//!     oracle show               prints the records of framed pages from standard input, as the reading program does
//!     oracle write              writes what the program `sheet` must write for the page on standard input
//!     oracle compare-program PROGRAM [WORDS]
//!                               runs the program on the kept list and compares what it writes
//!     oracle compare-failing PROGRAM [WORDS]
//!                               the same for a few pages, while one read after another fails (with strace)
//!     oracle compare-reading SEED ROUNDS PROGRAM
//!                               sends generated pages through the reading program and compares its lines; then what is no
//!                               stream of pages, of which it must say what it wants

use oracle::answer::{self, Outcome};
use oracle::{failing, generations, hex, kept, program, reading, run};
use std::io::{stdin, stdout, BufReader, BufWriter, Read, Write};
use std::path::Path;
use std::process::{Command, ExitCode};

const USAGE: &str =
    "usage: oracle answer HEX | documents | run SEED ROUNDS | keep | kept-pages FOLDER | show | write
       | compare-reading SEED ROUNDS PROGRAM | compare-program PROGRAM [WORDS]
       | compare-failing PROGRAM [WORDS]";

fn main() -> ExitCode {
    let arguments: Vec<String> = std::env::args().skip(1).collect();
    let words: Vec<&str> = arguments.iter().map(String::as_str).collect();
    let result = match words.as_slice() {
        ["answer", page] => show(&hex::bytes(page)),
        ["documents"] => generations::report::text().map(|text| print!("{text}")),
        ["run", seed, rounds] => report(seed, rounds),
        ["keep"] => keep(),
        ["kept-pages", folder] => write_pages(Path::new(folder)),
        ["show"] => show_records(),
        ["write"] => write(),
        ["compare-program", program, words @ ..] => compare_program(program, words),
        ["compare-failing", program, words @ ..] => compare_failing(program, words),
        ["compare-reading", seed, rounds, program] => compare_reading(seed, rounds, program),
        _ => Err(USAGE.into()),
    };
    match result {
        Ok(()) => ExitCode::SUCCESS,
        Err(words) => {
            eprintln!("{words}");
            ExitCode::FAILURE
        }
    }
}

fn show(page: &[u8]) -> Result<(), String> {
    let worked = answer::work(page).map_err(|failure| failure.0)?;
    let answer = answer::of_worked(&worked);
    println!("{:?} ({:?})", answer.outcome, answer.domain);
    println!("with the function table: {:?}", answer.table);
    println!("as the operators document asks: {:?}", answer.operators);
    println!("with the older generation's table: {:?}", answer.older);
    println!("with the newer generation's table: {:?}", answer.newer);
    println!("generations that accept it: {:?}", answer.generations());
    if let Some(message) = worked.message {
        println!("the Rust: {message}");
    }
    if let Some(part) = answer.label {
        println!("label: {}, {}", part.start, part.length);
    }
    if let Outcome::Accepted(_) = answer.outcome {
        println!("copy: {}", hex::text(&answer.copy));
        println!("canonical: {}", String::from_utf8_lossy(&answer.canonical));
        println!("split:\n{}", String::from_utf8_lossy(&answer.split));
    }
    Ok(())
}

/// Runs generated pages; a class that never occurred is a failure.
fn report(seed: &str, rounds: &str) -> Result<(), String> {
    let seed = seed.parse().map_err(|_| USAGE)?;
    let rounds = rounds.parse().map_err(|_| USAGE)?;
    let coverage = run::run(seed, rounds)?;
    print!("{coverage}");
    match coverage.missing().as_slice() {
        [] => Ok(()),
        missing => Err(format!("never occurred: {}", missing.join(", "))),
    }
}

fn keep() -> Result<(), String> {
    let lists = kept::lists().map_err(|failure| failure.0)?;
    for (place, entries) in kept::PLACES.iter().zip(&lists) {
        let files = kept::files(place, entries);
        for (path, bytes) in &files {
            std::fs::write(path, bytes).map_err(|error| format!("{path}: {error}"))?;
        }
        let (pages, accepted) = kept::counts(entries);
        let bytes = files[0].1.len();
        println!("{pages} pages, {accepted} accepted, {bytes} bytes");
    }
    let path = kept::SIGNATURES_PATH;
    std::fs::write(path, kept::signatures()).map_err(|error| format!("{path}: {error}"))?;
    println!("{} names", kept::names().len());
    Ok(())
}

/// One file for each page of the kept list, named by its place.
fn write_pages(folder: &Path) -> Result<(), String> {
    let entries = kept::entries().map_err(|failure| failure.0)?;
    for (index, (page, _)) in entries.iter().enumerate() {
        let written = std::fs::write(folder.join(format!("{index:04}")), page);
        written.map_err(|error| error.to_string())?;
    }
    println!("{} pages", entries.len());
    Ok(())
}

fn compare_reading(seed: &str, rounds: &str, program: &str) -> Result<(), String> {
    let seed = seed.parse().map_err(|_| USAGE)?;
    let rounds = rounds.parse().map_err(|_| USAGE)?;
    let tally = reading::compare(seed, rounds, &mut Command::new(program))?;
    reading::compare_faults(&mut Command::new(program))?;
    println!(
        "{} pages, {} lines: no difference",
        tally.pages, tally.lines
    );
    Ok(())
}

fn show_records() -> Result<(), String> {
    let input = BufReader::new(stdin().lock());
    let output = BufWriter::new(stdout().lock());
    reading::show(input, output)
}

fn write() -> Result<(), String> {
    // With room for every piece that is sent: what a read leaves of a packet is lost.
    let mut page = Vec::with_capacity(1 << 16);
    let read = stdin().lock().read_to_end(&mut page);
    read.map_err(|error| format!("the input cannot be read: {error}"))?;
    let output = program::output(&page).map_err(|failure| failure.0)?;
    let written = stdout().lock().write_all(&output);
    written.map_err(|error| error.to_string())
}

fn compare_program(program: &str, words: &[&str]) -> Result<(), String> {
    let pages = program::compare(program, words)?;
    println!("{pages} pages: no difference");
    Ok(())
}

fn compare_failing(program: &str, words: &[&str]) -> Result<(), String> {
    let tally = failing::compare(program, words)?;
    println!(
        "{} pages, {} runs, {} of an input that cannot be read: no difference",
        tally.pages, tally.runs, tally.unreadable
    );
    Ok(())
}
