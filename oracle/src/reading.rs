//! The reading program held against the oracle's reading: pages go in through a pipe, its lines come back and are compared.
//! What is no stream of pages is answered by a sentence.

use crate::generate::stream;
use crate::random::Random;
use crate::{hex, show};
use std::io::{self, BufRead, BufReader, BufWriter, Read, Write};
use std::process::{ChildStdin, Command, Output, Stdio};
use std::sync::mpsc::{self, Receiver, Sender};
use std::thread;

/// What was compared without a difference.
#[derive(Debug, Default, PartialEq)]
pub struct Tally {
    pub pages: u64,
    pub lines: u64,
}

/// Sends the fixed and the shortest pages and `rounds` rounds from the seed through the program; stops at the first difference.
pub fn compare(seed: u64, rounds: usize, program: &mut Command) -> Result<Tally, String> {
    let mut child = program
        .stdin(Stdio::piped())
        .stdout(Stdio::piped())
        .spawn()
        .map_err(|error| format!("{program:?}: {error}"))?;
    let input = child.stdin.take().expect("the input is a pipe");
    let output = child.stdout.take().expect("the output is a pipe");
    let (sent, received) = mpsc::channel();
    let writer = thread::spawn(move || send(seed, rounds, input, &sent));
    let compared = receive(BufReader::new(output), &received);
    drop(received);
    // The writer has come to its last page, or meets the end of a program that printed a difference or nothing more.
    let _ = writer.join();
    let status = child.wait().map_err(|error| error.to_string())?;
    match compared {
        Ok(_) if !status.success() => Err(format!("the program ended with {status}")),
        compared => compared,
    }
}

/// Writes each page after its length (four bytes, lowest first), and hands it to the comparing side.
fn send(seed: u64, rounds: usize, input: ChildStdin, sent: &Sender<Vec<u8>>) -> io::Result<()> {
    let mut input = BufWriter::new(input);
    let mut random = Random::new(seed);
    let generated = (0..rounds).flat_map(|_| stream::round(&mut random));
    for sample in stream::fixed().chain(stream::short()).chain(generated) {
        input.write_all(&(sample.page.len() as u32).to_le_bytes())?;
        input.write_all(&sample.page)?;
        if sent.send(sample.page).is_err() {
            break;
        }
    }
    input.flush()
}

fn receive(output: impl BufRead, received: &Receiver<Vec<u8>>) -> Result<Tally, String> {
    let mut printed = output.lines();
    let mut tally = Tally::default();
    for page in received {
        for expected in show::lines(&page) {
            let line = match printed.next() {
                Some(line) => line.map_err(|error| error.to_string())?,
                None => "(the program has ended)".into(),
            };
            if line != expected {
                return Err(format!(
                    "page: {}\nthe oracle: {expected}\nthe program: {line}",
                    hex::text(&page)
                ));
            }
            tally.lines += 1;
        }
        tally.pages += 1;
    }
    match printed.next() {
        None => Ok(tally),
        Some(_) => Err("the program prints lines behind the last page".into()),
    }
}

/// What the reading program says, on standard error, of input that is no stream of pages.
pub const WANTED: &str = "show_records: standard input must be a stream of pages, \
     each a length of four bytes, lowest first, and so many bytes, at most 65536";

/// Input that is no stream of pages, and the lines that are printed of the pages before the fault.
const NO_STREAMS: [(&str, &str); 6] = [
    // a page without its length, `up`
    ("02 02 75 70 00", ""),
    // a length cut short, one without bytes, and one with too few
    ("05 00", ""),
    ("05 00 00 00", ""),
    ("05 00 00 00 02 02 75", ""),
    // a page too large for the program
    ("01 00 01 00 07*65537;", ""),
    // a page, and a length cut short
    ("05 00 00 00 02 02 75 70 00 05", "5 2 2 2 0\nend 1\n"),
];

/// Runs the program on what is no stream of pages, and on no input: it must say what it wants, and of no input nothing.
pub fn compare_faults(program: &mut Command) -> Result<(), String> {
    for (input, lines) in NO_STREAMS {
        compare_said(program, &hex::bytes(input), lines, &format!("{WANTED}\n"))?;
    }
    compare_said(program, &[], "", "")
}

fn compare_said(
    program: &mut Command,
    input: &[u8],
    lines: &str,
    said: &str,
) -> Result<(), String> {
    let output = answered(program, input).map_err(|error| format!("{program:?}: {error}"))?;
    let printed = String::from_utf8_lossy(&output.stdout);
    let complaint = String::from_utf8_lossy(&output.stderr);
    if printed == lines && complaint == said {
        return Ok(());
    }
    let start = hex::text(&input[..input.len().min(16)]);
    Err(format!(
        "input: {start}\nexpected: {lines}{said}\nthe program: {printed}{complaint}"
    ))
}

fn answered(program: &mut Command, input: &[u8]) -> io::Result<Output> {
    let mut child = program
        .stdin(Stdio::piped())
        .stdout(Stdio::piped())
        .stderr(Stdio::piped())
        .spawn()?;
    if let Some(mut pipe) = child.stdin.take() {
        // The program may end before it has read all.
        let _ = pipe.write_all(input);
    }
    child.wait_with_output()
}

/// The largest page that the reading program takes.
const LARGEST: usize = 65_536;

/// Prints the lines for framed pages from `input`, as the reading program does.
pub fn show(mut input: impl Read, mut output: impl Write) -> Result<(), String> {
    while let Some(page) = next_page(&mut input)? {
        for line in show::lines(&page) {
            writeln!(output, "{line}").map_err(|error| error.to_string())?;
        }
    }
    output.flush().map_err(|error| error.to_string())
}

/// The next page of a stream that has not ended.
fn next_page(input: &mut impl Read) -> Result<Option<Vec<u8>>, String> {
    let cut_short = |_| WANTED.to_string();
    let mut length = [0; 4];
    if input.read(&mut length[..1]).map_err(cut_short)? == 0 {
        return Ok(None);
    }
    input.read_exact(&mut length[1..]).map_err(cut_short)?;
    let size = u32::from_le_bytes(length) as usize;
    if size > LARGEST {
        return Err(WANTED.to_string());
    }
    let mut page = vec![0; size];
    input.read_exact(&mut page).map_err(cut_short)?;
    Ok(Some(page))
}
