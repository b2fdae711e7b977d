//! Command line of the comparison.
//!
//!     compare fixed                       chosen pages, limits, every byte string of at most two bytes
//!     compare seeds FIRST LAST THREADS    one round of generated pages for each seed
//!     compare seeds FIRST LAST THREADS STATE
//!                                         the same with progress, resumed from the file STATE if the run was stopped
//!     compare texts                       all short texts through `check`: strings of up to three bytes, others of two
//!     compare fractions [COUNT]           many fractions through canonical text, so many of them random ones
//!     compare patterns [COUNT]            all short patterns, nests that fill 255 bytes and so many random ones
//!     compare copies [SEEDS]              pairs of pages of one query and of two, from so many seeds
//!     compare functions [COUNT]           names of the function table, near ones and so many random ones through the
//!                                         call for signatures; every name with every near signature through both
//!                                         checks
//!     compare operators [COUNT]           every aggregator on every pair of expressions, limitk and limit_ratio among
//!                                         other faults, and so many random pages with them, through all calls
//!     compare generations [COUNT]         every function of the three tables with all that is near it, every pair of
//!                                         the functions that each generation has by itself, and so many random pages
//!                                         with them, through all calls

use compare::copies;
use compare::fractions::{self, Sizes};
use compare::functions;
use compare::generations;
use compare::library::Library;
use compare::operators;
use compare::patterns;
use compare::resume::Run;
use compare::run::{self, Tally};
use compare::short_texts;
use std::path::Path;
use std::process::ExitCode;

const USAGE: &str =
    "usage: compare fixed | seeds FIRST LAST THREADS [STATE] | texts | fractions [COUNT]
       | patterns [COUNT] | copies [SEEDS] | functions [COUNT] | operators [COUNT]
       | generations [COUNT]";

/// Seeds between two states: some ten seconds.
const BLOCK: u64 = 1000;

fn main() -> ExitCode {
    let arguments: Vec<String> = std::env::args().skip(1).collect();
    let words: Vec<&str> = arguments.iter().map(String::as_str).collect();
    let library = Library::linked();
    let result = match words.as_slice() {
        ["fixed"] => run::fixed(library).map(report),
        ["seeds", first, last, threads] => seeds(library, first, last, threads, None).map(report),
        ["seeds", first, last, threads, state] => {
            seeds(library, first, last, threads, Some(Path::new(state))).map(report)
        }
        ["texts"] => short_texts::compare(library).map(report_texts),
        ["fractions"] => fractions::compare(library, Sizes::USUAL).map(report_fractions),
        ["fractions", count] => many_fractions(library, count).map(report_fractions),
        ["patterns"] => patterns::compare(library, patterns::Sizes::USUAL).map(report_patterns),
        ["patterns", count] => many_patterns(library, count).map(report_patterns),
        ["copies"] => copies::compare(library, copies::Sizes::USUAL).map(report_copies),
        ["copies", seeds] => many_copies(library, seeds).map(report_copies),
        ["functions"] => functions::compare(library, functions::USUAL).map(report_functions),
        ["functions", count] => many_functions(library, count).map(report_functions),
        ["operators"] => operators::compare(library, operators::Sizes::USUAL).map(report_operators),
        ["operators", count] => many_operators(library, count).map(report_operators),
        ["generations"] => {
            generations::compare(library, generations::Sizes::USUAL).map(report_generations)
        }
        ["generations", count] => many_generations(library, count).map(report_generations),
        _ => Err(USAGE.into()),
    };
    match result {
        Ok(()) => ExitCode::SUCCESS,
        Err(words) => {
            eprintln!("{words}");
            ExitCode::FAILURE
        }
    }
}

fn seeds(
    library: Library,
    first: &str,
    last: &str,
    threads: &str,
    state: Option<&Path>,
) -> Result<Tally, String> {
    let first = first.parse().map_err(|_| USAGE)?;
    let last = last.parse().map_err(|_| USAGE)?;
    let threads = threads.parse().map_err(|_| USAGE)?;
    let Some(state) = state else {
        return run::seeds(library, first..=last, threads);
    };
    let run = Run {
        library,
        seeds: first..=last,
        threads,
        block: BLOCK,
    };
    let (tally, seconds) = run.resume(state)?;
    println!("{seconds} s");
    Ok(tally)
}

fn report(tally: Tally) {
    print!("{}", tally.coverage);
    println!(
        "{} pages, {} calls, no difference",
        tally.coverage.pages, tally.calls
    );
}

fn report_texts(tally: short_texts::Tally) {
    println!(
        "{} strings, {} labels, matchers and names: no difference",
        tally.strings, tally.others
    );
}

fn many_fractions(library: Library, count: &str) -> Result<fractions::Tally, String> {
    let random = count.parse().map_err(|_| USAGE)?;
    let sizes = Sizes {
        random,
        ..Sizes::USUAL
    };
    fractions::compare(library, sizes)
}

fn report_fractions(tally: fractions::Tally) {
    println!(
        "{} fractions in order, {} at random, {} pairs of fills: no difference",
        tally.listed, tally.random, tally.pairs
    );
}

fn many_patterns(library: Library, count: &str) -> Result<patterns::Tally, String> {
    let random = count.parse().map_err(|_| USAGE)?;
    let sizes = patterns::Sizes {
        random,
        ..patterns::Sizes::USUAL
    };
    patterns::compare(library, sizes)
}

fn report_patterns(tally: patterns::Tally) {
    let parts = [
        ("of up to seven signs", tally.listed),
        ("at random", tally.random),
        ("nested and long", tally.nests),
    ];
    for (words, count) in parts {
        println!(
            "{} {words}, {} covered, {} of these match empty text; {} pages",
            count.patterns, count.covered, count.matching, count.pages
        );
    }
    let patterns: u64 = parts.iter().map(|(_, count)| count.patterns).sum();
    let pages: u64 = parts.iter().map(|(_, count)| count.pages).sum();
    println!("{patterns} patterns, {pages} pages: no difference");
}

fn many_copies(library: Library, seeds: &str) -> Result<copies::Tallies, String> {
    let seeds = seeds.parse().map_err(|_| USAGE)?;
    let sizes = copies::Sizes {
        seeds,
        ..copies::Sizes::USUAL
    };
    copies::compare(library, sizes)
}

fn report_copies(tallies: copies::Tallies) {
    let copies::Tallies { listed, generated } = tallies;
    let pairs = &generated.pairs;
    for sort in copies::sorts() {
        println!("{:>9}  {sort}", pairs.count(sort));
    }
    for (words, tally) in [("of a few records", &listed), ("of the seeds", &generated)] {
        println!(
            "{} pages {words}, {} trees, {} copies longer than a page",
            tally.pages, tally.trees, tally.longer
        );
    }
    println!(
        "{} pages, {} pairs of one tree, {} of two: no difference",
        listed.pages + generated.pages,
        pairs.equal,
        pairs.unequal
    );
}

fn many_functions(library: Library, count: &str) -> Result<functions::Tally, String> {
    let random = count.parse().map_err(|_| USAGE)?;
    functions::compare(library, random)
}

fn report_functions(tally: functions::Tally) {
    println!(
        "{} names of the table, {} others, {} calls for signatures; {} pages with {} calls refused by the table: no \
         difference",
        tally.known, tally.unknown, tally.calls, tally.pages, tally.refused
    );
}

fn many_operators(library: Library, count: &str) -> Result<operators::Tally, String> {
    let random = count.parse().map_err(|_| USAGE)?;
    let sizes = operators::Sizes {
        random,
        ..operators::Sizes::USUAL
    };
    operators::compare(library, sizes)
}

fn report_operators(tally: operators::Tally) {
    println!(
        "{} pages with limitk and limit_ratio, {} refused with 42, {} calls: no difference",
        tally.pages, tally.refused, tally.calls
    );
}

fn many_generations(library: Library, count: &str) -> Result<generations::Tally, String> {
    let random = count.parse().map_err(|_| USAGE)?;
    let sizes = generations::Sizes {
        random,
        ..generations::Sizes::USUAL
    };
    generations::compare(library, sizes)
}

fn report_generations(tally: generations::Tally) {
    println!(
        "{} pages for the generations, {} accepted by the older alone, {} by the newer alone, {} by both, {} calls: no \
         difference",
        tally.pages, tally.older, tally.newer, tally.both, tally.calls
    );
}
