//! What a program executes inside one of its functions, counted by valgrind's callgrind: instructions, and what
//! `memcpy` and `memset` write. The program must have these two itself, with one instruction for each byte, so that no
//! count depends on the processor or on the C library.

use std::path::Path;
use std::process::Command;

/// The counts of one run.
#[derive(Debug, Clone, Copy, Default, PartialEq, Eq)]
pub struct Profile {
    /// Instructions of the function and of all that it calls, but for `memcpy` and `memset`.
    pub instructions: u64,
    /// Calls of these two.
    pub calls: u64,
    /// The bytes that they write.
    pub bytes: u64,
}

/// The instructions of the program's `memcpy` and `memset` beside those for bytes; nothing for another function.
fn overhead(function: &str) -> Option<u64> {
    match function {
        "memcpy" => Some(4),
        "memset" => Some(6),
        _ => None,
    }
}

/// Runs the program with these words; only what it executes inside the function is counted.
pub fn count(function: &str, program: &Path, words: &[&str]) -> Result<Profile, String> {
    let written = watched(function, program, words, &[])?;
    parse(&written, &program.to_string_lossy())
        .map_err(|found| format!("{program:?} {words:?}: {found}"))
}

/// The instructions of each call of the function, in order, with all that it calls.
pub fn count_each(function: &str, program: &Path, words: &[&str]) -> Result<Vec<u64>, String> {
    let at_each = format!("--dump-after={function}");
    let written = watched(function, program, words, &["--combine-dumps=yes", &at_each])?;
    parse_each(&written).ok_or(format!("{program:?} {words:?}: the counts are missing"))
}

/// What callgrind writes of a program's run, with further words for callgrind.
fn watched(
    function: &str,
    program: &Path,
    words: &[&str],
    further: &[&str],
) -> Result<String, String> {
    let mut command = Command::new("valgrind");
    command
        .args([
            "--quiet",
            "--tool=callgrind",
            "--callgrind-out-file=/dev/stdout",
        ])
        .args(["--compress-strings=no", "--compress-pos=no"])
        .arg(format!("--toggle-collect={function}"))
        .args(further)
        .arg(program)
        .args(words);
    let output = command
        .output()
        .map_err(|error| format!("valgrind: {error}"))?;
    if !output.status.success() {
        let said = String::from_utf8_lossy(&output.stderr);
        return Err(format!("{command:?}: {}\n{said}", output.status));
    }
    Ok(String::from_utf8_lossy(&output.stdout).into_owned())
}

/// The totals of all parts but the last one, which is of the program's end and has counted nothing.
pub fn parse_each(written: &str) -> Option<Vec<u64>> {
    let totals = written
        .lines()
        .filter_map(|line| line.strip_prefix("totals: "));
    let mut counts: Vec<u64> = totals
        .map(|count| count.parse().ok())
        .collect::<Option<_>>()?;
    (counts.pop() == Some(0) && !counts.contains(&0)).then_some(counts)
}

/// The counts in what callgrind wrote. It is a fault if anything was executed outside the program's own file.
pub fn parse(written: &str, program: &str) -> Result<Profile, String> {
    let costs = Costs::read(written).ok_or("the counts are missing or do not add up")?;
    let mut profile = Profile::default();
    for (object, function, instructions) in costs.executed {
        if object != program {
            return Err(format!(
                "{function} of {object} is none of the program's own"
            ));
        }
        match overhead(function) {
            None => profile.instructions += instructions,
            Some(_) => profile.bytes += instructions,
        }
    }
    for (function, calls) in costs.called {
        if let Some(overhead) = overhead(function) {
            profile.calls += calls;
            profile.bytes -= calls * overhead;
        }
    }
    Ok(profile)
}

/// What callgrind wrote of functions.
#[derive(Default)]
struct Costs<'a> {
    /// The object and the function, and instructions that were executed there.
    executed: Vec<(&'a str, &'a str, u64)>,
    /// The function, and calls of it.
    called: Vec<(&'a str, u64)>,
}

impl<'a> Costs<'a> {
    /// Nothing if there are none, or other ones than their total says.
    fn read(written: &'a str) -> Option<Self> {
        let mut costs = Self::default();
        let (mut object, mut function, mut called) = ("", "", "");
        let mut total = 0;
        let mut lines = written.lines();
        while let Some(line) = lines.next() {
            match line.split_once(['=', ' ']) {
                Some(("ob", name)) => object = name,
                Some(("fn", name)) => function = name,
                Some(("cfn", name)) => called = name,
                Some(("calls", counts)) => {
                    let count = counts.split(' ').next()?;
                    costs.called.push((called, count.parse().ok()?));
                    // What the calls executed; it stands with the called function too.
                    lines.next()?;
                }
                Some(("totals:", count)) => total = count.parse().ok()?,
                Some((position, count)) if position.parse::<u64>().is_ok() => {
                    costs.executed.push((object, function, count.parse().ok()?));
                }
                _ => {}
            }
        }
        let executed: u64 = costs.executed.iter().map(|cost| cost.2).sum();
        (executed == total && total > 0).then_some(costs)
    }
}
