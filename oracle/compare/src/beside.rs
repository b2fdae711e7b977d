//! Two archives of the library timed in one run, on the same pages, in alternating rounds: CPU time, the least of the
//! rounds.

use crate::bench::{everyday_pages, Subject, ROUNDS, SIZES};
use crate::instructions;
use crate::library::{Asks, Library, Writes};

/// Prints nanoseconds a page: all calls on pages of three sizes, then check on selectors with long values, on nested
/// calls and on nested limits; of these last the added checks too, and which generations accept the nested calls, which
/// an earlier archive may not have.
pub fn print(before: &Library, after: &Library) {
    println!("nanoseconds of CPU time a page, the least of {ROUNDS} alternating rounds");
    println!("                           before       after   ratio");
    for (_, records, count) in SIZES {
        let pages = everyday_pages(records, count);
        let subject = Subject::new(&pages);
        println!("{records} records");
        print_check("check", &subject, before, after);
        print_writes("copy", &subject, before.copy, after.copy);
        print_writes("canonical", &subject, before.canonical, after.canonical);
        print_writes("split", &subject, before.split, after.split);
    }
    let [_, values, functions, operators, generations, _] = &instructions::SETS;
    println!("check, values of so many bytes");
    for name in values.pages {
        let pages = instructions::pages(name).expect("a page with these values");
        print_check(name, &Subject::new(&pages), before, after);
    }
    for name in functions.pages {
        print_added(name, "check_table", after.check_table, before, after);
    }
    for name in operators.pages {
        print_added(
            name,
            "check_operators",
            after.check_operators,
            before,
            after,
        );
    }
    for name in generations.pages {
        print_added(name, "generations", after.generations, before, after);
    }
}

/// Check of both archives, then check of the later one beside a check that was added.
fn print_added(name: &str, words: &str, added: Asks, before: &Library, after: &Library) {
    let pages = instructions::pages(name).expect("pages of this name");
    let subject = Subject::new(&pages);
    println!("{name}");
    print_check("check", &subject, before, after);
    let times = subject.beside(|| subject.asked(after.check), || subject.asked(added));
    println!("after: check, and {words}");
    print_row("", times);
}

fn print_check(words: &str, subject: &Subject, before: &Library, after: &Library) {
    let times = subject.beside(
        || subject.asked(before.check),
        || subject.asked(after.check),
    );
    print_row(words, times);
}

fn print_writes(words: &str, subject: &Subject, before: Writes, after: Writes) {
    let times = subject.beside(|| subject.written(before), || subject.written(after));
    print_row(words, times);
}

fn print_row(words: &str, (before, after): (f64, f64)) {
    println!(
        "    {words:<18} {before:>10.0}  {after:>10.0}  {:>6.2}",
        before / after
    );
}
