//! Every form of an argument, what only looks like a signature, examples, and documents that say two things.

use crate::functions;
use oracle::documents::signature::{self, Argument, Shown};
use oracle::documents::{Document, Functions, NEWER};
use oracle::page::record::{Extra, Kind};

fn shown(kinds: &[Kind], optional: usize, goes_on: bool) -> Shown {
    let arguments = kinds.iter().enumerate().map(|(place, kind)| Argument {
        kind: *kind,
        is_optional: place + optional >= kinds.len(),
    });
    Shown {
        arguments: arguments.collect(),
        goes_on,
    }
}

/// Every form of an argument: named, bare, with a default, in brackets, and `...`; and the extra that is counted.
#[test]
fn every_form_of_argument_is_read() {
    use Kind::{Matrix, Scalar, String, Vector};
    for (name, shown, extra) in [
        ("time", shown(&[], 0, false), Extra::Fixed),
        ("abs", shown(&[Vector], 0, false), Extra::Fixed),
        ("vector", shown(&[Scalar], 0, false), Extra::Fixed),
        (
            "quantile_over_time",
            shown(&[Scalar, Matrix], 0, false),
            Extra::Fixed,
        ),
        (
            "histogram_quantile",
            shown(&[Scalar, Vector], 0, false),
            Extra::Fixed,
        ),
        ("year", shown(&[Vector], 1, false), Extra::Upper(1)),
        ("round", shown(&[Vector, Scalar], 1, false), Extra::Upper(1)),
        ("info", shown(&[Vector, Vector], 1, false), Extra::Upper(1)),
        (
            "sort_by_label_desc",
            shown(&[Vector, String], 0, true),
            Extra::Unlimited,
        ),
        (
            "label_join",
            shown(&[Vector, String, String, String, String], 0, true),
            Extra::Unlimited,
        ),
    ] {
        let read = &functions(NEWER)[name].shown;
        assert_eq!((read, read.extra()), (&shown, extra), "{name}");
    }
}

#[test]
fn what_only_looks_like_a_signature_is_none() {
    for code in [
        "vector(time())",
        "rate(v)",
        "sum(rate(...))",
        "histogram_quantile(0, v instant-vector)",
        "histogram_fraction(-Inf, +Inf, b)",
        "Exp(NaN)",
        "Abs(v instant-vector)",
        "ln(x < 0) = NaN",
        "<aggregation>_over_time()",
        "rate(http_server_request_duration_seconds_count[2m])",
        "on (job, instance)",
        "abs",
        "abs(...)",
        "abs(v instant-vector",
        "abs(v instant-vectors)",
        "abs(2 instant-vector)",
        "abs(v instant-vector) + abs(v instant-vector)",
    ] {
        assert_eq!(signature::of(code), None, "{code}");
    }
}

/// A short document: two headings, an example between fences, an indented one, a list.
const SHORT: &str = "---\ntitle: `f(v scalar)`\n---\n\n# `abs()` and `clamp()`\n\n`abs(v\ninstant-vector)` and\n\
    `clamp(v instant-vector, [min scalar])`.\n\n```\n`abs(v range-vector)`\n```\n\n    `abs(v string)`\n\n\
    * `pi()`: as `abs()`,\n    `sum()` and `rate(v)`\n- `deg(scalar, ...)`: more\n\n### Less\n\n## `desc()`\n\n\
    Same as `clamp`, but not so\n\n## `now()`\n\nNow:\n\n`now()` is.\n";

fn read(text: &str) -> Result<Functions, String> {
    let version = "0";
    Document { version, text }.functions()
}

#[test]
fn examples_are_not_read() {
    use Kind::{Scalar, Vector};
    let found = read(SHORT).expect("the document is read");
    let expected = [
        ("abs", 7, shown(&[Vector], 0, false)),
        ("clamp", 9, shown(&[Vector, Scalar], 1, false)),
        ("deg", 19, shown(&[Scalar], 0, true)),
        ("desc", 25, shown(&[Vector, Scalar], 1, false)),
        ("now", 31, shown(&[], 0, false)),
        ("pi", 17, shown(&[], 0, false)),
    ];
    let found: Vec<_> = found
        .iter()
        .map(|(name, described)| (name.as_str(), described.line, described.shown.clone()))
        .collect();
    assert_eq!(found, expected);
}

/// Other kinds on a second line, a function under no heading, a heading without a signature, one that is the same as
/// nothing, code that does not end: each is said with its line.
#[test]
fn documents_that_say_two_things_are_not_read() {
    for (more, words) in [
        (
            "See `abs(v range-vector)`.",
            "line 33: `abs` has other kinds than on line 7",
        ),
        (
            "See `abs(v=1 instant-vector)`.",
            "line 33: `abs` has other kinds than on line 7",
        ),
        (
            "* `deg(scalar)`: less",
            "line 33: `deg` has other kinds than on line 19",
        ),
        (
            "See `rad(v scalar)`.",
            "line 33: `rad` is nowhere described",
        ),
        (
            "## `rad()`\n\nof `abs()`",
            "line 33: `rad` is nowhere described",
        ),
        (
            "## `rad()`\n\nSame as `deg2`, but",
            "line 35: `deg2` is nowhere described",
        ),
        (
            "See `abs(v instant-vector).",
            "line 33: code that is not closed or empty",
        ),
        ("```\nabs(up)", "the document ends within an example"),
    ] {
        let found = read(&format!("{SHORT}\n{more}\n"));
        assert_eq!(found, Err(words.to_string()), "{more}");
    }
}
