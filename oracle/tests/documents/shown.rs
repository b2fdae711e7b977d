//! What the two documents show, on which lines, and what changed from one to the other.

use crate::functions;
use oracle::documents::signature;
use oracle::documents::{Document, Functions, NEWER, OLDER};
use std::collections::BTreeSet;
use std::process::Command;

const README: &str = include_str!("../../prometheus/README.md");

#[test]
fn the_documents_are_unchanged() {
    let status = Command::new("sha256sum")
        .args(["--check", "--strict", "--quiet", "SHA256SUMS"])
        .current_dir(concat!(env!("CARGO_MANIFEST_DIR"), "/prometheus"))
        .status()
        .expect("sha256sum runs");
    assert!(status.success());
}

/// The names that the first document has and the second does not.
fn only(one: &Functions, other: &Functions) -> Vec<String> {
    let names = one.keys().filter(|name| !other.contains_key(*name));
    names.cloned().collect()
}

#[test]
fn the_shared_names_show_the_same() {
    let [older, newer] = [OLDER, NEWER].map(functions);
    assert_eq!((older.len(), newer.len()), (76, 80));
    let shared: Vec<_> = older
        .keys()
        .filter(|name| newer.contains_key(*name))
        .collect();
    assert_eq!(shared.len(), 75);
    for name in shared {
        assert_eq!(older[name].shown, newer[name].shown, "{name}");
    }
    assert_eq!(only(&older, &newer), ["holt_winters"]);
    let added = [
        "double_exponential_smoothing",
        "info",
        "ts_of_last_over_time",
        "ts_of_max_over_time",
        "ts_of_min_over_time",
    ];
    assert_eq!(only(&newer, &older), added);
}

/// The signature itself, not a remark about it, `year` on line 9 and 7; and lines that name another function's.
#[test]
fn signatures_stand_on_their_lines() {
    let [older, newer] = [OLDER, NEWER].map(functions);
    for (name, lines) in [
        ("abs", [30, 14]),
        ("histogram_fraction", [223, 254]),
        ("histogram_sum", [209, 243]),
        ("sort_desc", [603, 785]),
        ("sort_by_label_desc", [621, 810]),
        ("time", [633, 819]),
        ("year", [649, 836]),
        ("avg_over_time", [657, 844]),
        ("pi", [701, 907]),
    ] {
        assert_eq!([older[name].line, newer[name].line], lines, "{name}");
    }
    assert_eq!(older["holt_winters"].line, 374);
    for (name, line) in [
        ("double_exponential_smoothing", 183),
        ("info", 504),
        ("ts_of_min_over_time", 861),
        ("ts_of_max_over_time", 863),
        ("ts_of_last_over_time", 865),
    ] {
        assert_eq!(newer[name].line, line, "{name}");
    }
}

/// On its line every function is called, or the one whose signature it has is named.
#[test]
fn lines_have_what_was_read() {
    for document in [OLDER, NEWER] {
        let lines: Vec<&str> = document.text.lines().collect();
        let mut same = Vec::new();
        for (name, described) in functions(document) {
            assert_eq!(described.version, document.version);
            let line = lines[described.line - 1];
            if !line.contains(&format!("`{name}(")) {
                assert!(line.starts_with("Same as `"), "{name}: {line}");
                same.push(name);
            }
        }
        assert_eq!(same, ["sort_by_label_desc", "sort_desc"]);
    }
}

/// All code of a document, cut at backticks alone: also what stands in examples, where there are none.
fn codes(document: Document<'static>) -> impl Iterator<Item = String> {
    let paragraphs = document.text.split("\n\n");
    let codes = paragraphs.flat_map(|text| text.split('`').skip(1).step_by(2));
    codes.map(|code| code.replace('\n', " "))
}

/// No signature is left out: all code with the word for a kind was read, but for the two calls that begin with a number
/// and the names of kinds alone.
#[test]
fn every_code_with_a_kind_is_a_signature() {
    for document in [OLDER, NEWER] {
        let functions = functions(document);
        let has_kind = |code: &String| {
            let mut words = ["instant-vector", "range-vector", " scalar", " string"].iter();
            code.contains('(') && words.any(|word| code.contains(word))
        };
        let mut others = Vec::new();
        let mut read = BTreeSet::new();
        for code in codes(document).filter(has_kind) {
            match signature::of(&code) {
                Some((name, shown)) => {
                    assert_eq!(functions[name].shown, shown, "{code}");
                    read.insert(name.to_string());
                }
                None => others.push(code),
            }
        }
        let by_numbers =
            ["0", "1"].map(|number| format!("histogram_quantile({number}, v instant-vector)"));
        assert_eq!(others, by_numbers);
        let unread: Vec<_> = functions
            .keys()
            .filter(|name| !read.contains(*name))
            .collect();
        assert_eq!(unread, ["pi", "sort_by_label_desc", "sort_desc", "time"]);
    }
}

/// The words of the change log that are quoted, with what stands for several names written out.
fn quoted() -> String {
    let rows = README.lines().filter(|line| line.starts_with("| "));
    let words: String = rows.skip(1).collect();
    let endings = ["min", "max", "last"].map(|each| format!("`ts_of_{each}_over_time`"));
    words.replace("`ts_of_(min\\|max\\|last)_over_time`", &endings.join(" "))
}

/// What one document has and the other does not is told by the quoted lines of the change log, and nothing else is.
#[test]
fn the_change_log_tells_what_changed() {
    let [older, newer] = [OLDER, NEWER].map(functions);
    let changed: BTreeSet<String> = [only(&older, &newer), only(&newer, &older)]
        .concat()
        .into_iter()
        .collect();
    let quoted = quoted();
    let told = quoted.split('`').skip(1).step_by(2).map(String::from);
    let is_flag = |word: &String| word.contains('-');
    let told: BTreeSet<String> = told.filter(|word| !is_flag(word)).collect();
    assert_eq!(told, changed);
}
