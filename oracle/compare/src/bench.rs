//! The library timed beside the Rust: the same pages, alternating rounds, CPU time, the least of the rounds.
//!
//! The library is timed whole, from the bytes of the page: reading, checking, writing into a buffer. The Rust gets a
//! ready page, in three ways. 'constructors': records read and their parts made (matchers with compiled patterns, label
//! lists, signatures); only `Expr::new_*` and `check_ast` are timed, trees are dropped outside the time. 'from
//! records': the parts are made and the tree is dropped within the time, but each pattern was compiled before and is
//! taken from a cache. 'compiling': the same with `Matcher::new_matcher`, which compiles its pattern each time; the
//! library has the page's flag instead and compiles nothing. `Display` and `prettify` are timed on ready trees. 'looked
//! up': as 'from records', with the function of each call from the Rust's own table and compared with the carried one.
//! 'ends of records' is no call of the library: a loop that finds where records end and tests nothing, beside the
//! 'constructors', as a floor for every check.

use crate::clock::nanoseconds;
use crate::ends;
use crate::library::{Asks, Library, Writes};
use oracle::answer::{self, Worked};
use oracle::generate::{everyday, functions, generations, nesting, operators};
use oracle::generations::Generation;
use oracle::page::record::Record;
use oracle::random::Random;
use oracle::tree::Ready;
use promql_parser::parser::Expr;
use std::hint::black_box;

pub(crate) const ROUNDS: usize = 60;
const SEED: u64 = 1;

/// A round of the library goes over its pages as often as takes about this long.
const ROUND_NANOSECONDS: f64 = 2e6;

/// Records of a page, and how many pages of that size.
pub(crate) const SIZES: [(&str, usize, usize); 3] =
    [("small", 5, 800), ("medium", 40, 100), ("large", 250, 16)];

/// Room for every text.
const BUFFER_BYTES: usize = 1 << 20;

/// Prints nanoseconds a page, small, medium and large, then nanoseconds a byte of text for nested pages.
pub fn print(library: &Library) {
    println!("nanoseconds of CPU time a page, the least of {ROUNDS} alternating rounds");
    println!("                              library        Rust   ratio");
    for (words, records, count) in SIZES {
        let pages = everyday_pages(records, count);
        let subject = Subject::new(&pages);
        let bytes: usize = pages.iter().map(Vec::len).sum();
        println!("{words}: {records} records, {} bytes", bytes / count);
        print_calls(library, &subject);
    }
    print_functions(library);
    print_operators(library);
    print_generations(library);
    print_nested("canonical", library.canonical);
    print_nested("split", library.split);
}

/// Both checks on 255 nested calls; beside the check with the table the Rust looks each function up by its name.
fn print_functions(library: &Library) {
    let pages = vec![functions::nested_abs(); 16];
    let subject = Subject::new(&pages);
    println!("255 nested calls, {} bytes", pages[0].len());
    let rust = || subject.built_from_records(|record| Ready::from(record));
    let (ours, rust) = subject.beside(|| subject.asked(library.check), rust);
    print_row("check, from records", ours, Some(rust));
    let rust = || subject.built_from_records(Ready::looked_up);
    let (ours, rust) = subject.beside(|| subject.asked(library.check_table), rust);
    print_row("check_table, looked up", ours, Some(rust));
}

/// Check and the check that follows the operators document on 127 nested limits; the Rust has the first alone.
fn print_operators(library: &Library) {
    let pages = vec![operators::nested_limits(); 16];
    let subject = Subject::new(&pages);
    println!("127 nested limits, {} bytes", pages[0].len());
    for (words, call) in [
        ("check, from records", library.check),
        ("check_operators, the same", library.check_operators),
    ] {
        let rust = || subject.built_from_records(|record| Ready::from(record));
        let (ours, rust) = subject.beside(|| subject.asked(call), rust);
        print_row(words, ours, Some(rust));
    }
}

/// The calls for the two generations beside check and the check with the repository's table: on 255 nested calls that
/// both generations have, and on 63 of which the older does not know the first. The Rust looks each function up.
fn print_generations(library: &Library) {
    let calls = [
        ("check", library.check),
        ("check_table", library.check_table),
        ("check_older", library.check_older),
        ("check_newer", library.check_newer),
        ("generations", library.generations),
    ];
    for (words, page) in [
        ("255 nested calls", functions::nested_abs()),
        (
            "63 nested smoothings",
            generations::nested(Generation::Newer),
        ),
    ] {
        let pages = vec![page; 16];
        let subject = Subject::new(&pages);
        println!("{words}, {} bytes, for the generations", pages[0].len());
        for (name, call) in calls {
            let rust = || subject.built_from_records(Ready::looked_up);
            let (ours, rust) = subject.beside(|| subject.asked(call), rust);
            print_row(&format!("{name}, looked up"), ours, Some(rust));
        }
    }
}

/// Pages of so many records.
pub(crate) fn everyday_pages(records: usize, count: usize) -> Vec<Vec<u8>> {
    let random = &mut Random::new(SEED);
    (0..count).map(|_| everyday(random, records)).collect()
}

fn print_calls(library: &Library, subject: &Subject) {
    let (floor, rust) = subject.beside(|| subject.skipped(), || subject.built());
    print_row("ends of records", floor, Some(rust));
    let checked = || subject.asked(library.check);
    let (ours, rust) = subject.beside(checked, || subject.built());
    print_row("check, constructors", ours, Some(rust));
    let rust = || subject.built_from_records(|record| Ready::from(record));
    let (ours, rust) = subject.beside(checked, rust);
    print_row("check, from records", ours, Some(rust));
    let rust = || subject.built_from_records(Ready::compiled);
    let (checked, rust) = subject.beside(checked, rust);
    print_row("check, compiling", checked, Some(rust));
    let (copied, _) = subject.beside(|| subject.written(library.copy), || 0.0);
    print_row("copy", copied, None);
    println!("    copy, times check         {:>7.2}", copied / checked);
    let rust = || subject.printed(Expr::to_string);
    let (ours, rust) = subject.beside(|| subject.written(library.canonical), rust);
    print_row("canonical, Display", ours, Some(rust));
    let rust = || subject.printed(Expr::prettify);
    let (ours, rust) = subject.beside(|| subject.written(library.split), rust);
    print_row("split, prettify", ours, Some(rust));
}

fn print_row(words: &str, ours: f64, rust: Option<f64>) {
    match rust {
        Some(rust) => println!(
            "    {words:<22} {ours:>10.0}  {rust:>10.0}  {:>6.1}",
            rust / ours
        ),
        None => println!("    {words:<22} {ours:>10.0}"),
    }
}

/// Nanoseconds a byte of text, for pages that nest ever deeper.
fn print_nested(name: &str, call: Writes) {
    println!("{name}, nanoseconds a byte of text, at so many records");
    println!(
        "{:<28}{}",
        "",
        nesting::DEPTHS.map(|depth| format!("{depth:>8}")).concat()
    );
    let series = nesting::DEPTHS.map(nesting::series);
    for (index, (words, _)) in series[0].iter().enumerate() {
        let costs = series.each_ref().map(|pages| {
            let page = vec![pages[index].1.clone()];
            let subject = Subject::new(&page);
            let (ours, _) = subject.beside(|| subject.written(call), || 0.0);
            ours / subject.text_length(call) as f64
        });
        let columns = costs.map(|cost| format!("{cost:>8.2}")).concat();
        println!(
            "    {words:<24}{columns}   250 to 10: {:.2}",
            costs[3] / costs[0]
        );
    }
}

/// Pages, and what the Rust made of them.
pub(crate) struct Subject<'a> {
    pages: &'a [Vec<u8>],
    worked: Vec<Worked<'a>>,
}

impl<'a> Subject<'a> {
    pub(crate) fn new(pages: &'a [Vec<u8>]) -> Self {
        let work = |page: &'a Vec<u8>| answer::work(page).expect("the Rust is foreseen");
        Self {
            pages,
            worked: pages.iter().map(work).collect(),
        }
    }

    fn trees(&self) -> impl Iterator<Item = &Expr> {
        self.worked.iter().map(|worked| {
            let (tree, _) = worked.checked.as_ref().expect("the page is accepted");
            tree
        })
    }

    /// The least nanoseconds a page of the library and of what is beside it, in alternating rounds.
    pub(crate) fn beside(&self, library: impl Fn() -> f64, other: impl Fn() -> f64) -> (f64, f64) {
        let mut least = (f64::INFINITY, f64::INFINITY);
        for _ in 0..ROUNDS {
            least.0 = least.0.min(library());
            least.1 = least.1.min(other());
        }
        let pages = self.pages.len() as f64;
        (least.0 / pages, least.1 / pages)
    }

    /// The time of one go over all pages, in the middle of several.
    fn repeated(&self, mut go: impl FnMut()) -> f64 {
        let once = nanoseconds(&mut go);
        let times = (ROUND_NANOSECONDS / once).ceil().clamp(1.0, 10_000.0);
        nanoseconds(|| (0..times as usize).for_each(|_| go())) / times
    }

    fn skipped(&self) -> f64 {
        self.repeated(|| {
            for page in self.pages {
                black_box(ends::count(black_box(page)));
            }
        })
    }

    pub(crate) fn asked(&self, call: Asks) -> f64 {
        self.repeated(|| {
            for page in self.pages {
                // SAFETY: the page is a slice.
                black_box(unsafe { call(black_box(page.as_ptr()), page.len()) });
            }
        })
    }

    pub(crate) fn written(&self, call: Writes) -> f64 {
        let mut buffer = vec![0u8; BUFFER_BYTES];
        self.repeated(|| {
            for page in self.pages {
                let out = black_box(buffer.as_mut_ptr());
                // SAFETY: the page is a slice, and so is the buffer.
                black_box(unsafe { call(page.as_ptr(), page.len(), out, BUFFER_BYTES) });
            }
        })
    }

    /// The bytes that a call writes for the first page.
    fn text_length(&self, call: Writes) -> u64 {
        let page = &self.pages[0];
        let mut buffer = vec![0u8; BUFFER_BYTES];
        // SAFETY: the page is a slice, and so is the buffer.
        let word = unsafe { call(page.as_ptr(), page.len(), buffer.as_mut_ptr(), BUFFER_BYTES) };
        word >> 2
    }

    /// The Rust's constructors and `check_ast`, record by record.
    fn built(&self) -> f64 {
        let ready = |worked: &Worked| worked.records.iter().map(Ready::from).collect();
        let mut pages: Vec<Vec<Ready>> = self.worked.iter().map(ready).collect();
        let mut stack = Vec::with_capacity(256);
        let mut trees = Vec::with_capacity(pages.len());
        nanoseconds(|| {
            for records in &mut pages {
                for record in records.drain(..) {
                    let tree = record.build(&mut stack).expect("the page is accepted");
                    stack.push(tree);
                }
                trees.extend(stack.pop());
            }
            black_box(&trees);
        })
    }

    /// The same with the parts of the records, and the tree dropped.
    fn built_from_records(&self, make: impl Fn(&Record) -> Ready) -> f64 {
        let mut stack = Vec::with_capacity(256);
        nanoseconds(|| {
            for worked in &self.worked {
                for record in &worked.records {
                    let tree = make(record)
                        .build(&mut stack)
                        .expect("the page is accepted");
                    stack.push(tree);
                }
                drop(black_box(stack.pop()));
            }
        })
    }

    /// One of the Rust's texts, from ready trees.
    fn printed(&self, text: impl Fn(&Expr) -> String) -> f64 {
        let mut texts = Vec::with_capacity(self.pages.len());
        nanoseconds(|| {
            texts.extend(self.trees().map(&text));
            black_box(&texts);
        })
    }
}
