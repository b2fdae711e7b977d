//! The tables of the two generations (document 02, No. 13) are what the request's sentences make of the documents and
//! of the repository's table, with the figures that are told.

use oracle::documents::Described;
use oracle::functions::{self, Table};
use oracle::generations::disagreements::{self, Disagreements};
use oracle::generations::{report, Generation};
use oracle::page::record::{Extra, Kind, Signature};
use std::collections::BTreeSet;
use Generation::{Newer, Older};

/// The names that the repository has and neither document describes as of its generation.
const IN_NEITHER: [&str; 14] = [
    "end",
    "first_over_time",
    "histogram_quantiles",
    "integral",
    "max_of",
    "min_of",
    "range",
    "start",
    "start_timestamp",
    "step",
    "ts_of_first_over_time",
    "ts_of_last_over_time",
    "ts_of_max_over_time",
    "ts_of_min_over_time",
];

fn names(table: &Table) -> BTreeSet<&'static str> {
    table.keys().copied().collect()
}

fn row(signature: &Signature) -> (Vec<Kind>, Extra, Kind) {
    (signature.kinds.clone(), signature.extra, signature.result)
}

fn described(generation: Generation, name: &str) -> &'static Described {
    &generation.functions()[name]
}

#[test]
fn the_tables_have_the_sizes_that_are_told() {
    for (generation, letters) in [(Older, 643), (Newer, 659)] {
        let table = generation.table();
        assert_eq!(table.len(), 77, "{generation:?}");
        let sum: usize = table.keys().map(|name| name.len()).sum();
        assert_eq!(sum, letters, "{generation:?}");
        let is_own = |(name, signature): (&&str, &Signature)| *name == signature.name.text;
        assert!(table.iter().all(is_own));
    }
}

/// "The older has holt_winters, the newer double_exponential_smoothing, same kinds", and else the tables are one.
#[test]
fn the_tables_differ_in_one_name() {
    let [older, newer] = Generation::ALL.map(Generation::table);
    assert_eq!(Older.own().name.text, "holt_winters");
    assert_eq!(Newer.own().name.text, "double_exponential_smoothing");
    assert_eq!(row(Older.own()), row(Newer.own()));
    let smoothing = (
        vec![Kind::Matrix, Kind::Scalar, Kind::Scalar],
        Extra::Fixed,
        Kind::Vector,
    );
    assert_eq!(row(Older.own()), smoothing);
    let without = |table: &Table, own: &str| {
        let mut table = table.clone();
        table.remove(own).expect("its own name");
        table
    };
    let shared = without(older, "holt_winters");
    assert_eq!(shared, without(newer, "double_exponential_smoothing"));
    assert_eq!(shared.len(), 76);
}

/// "Add a table for each from its functions document": the document's names, `info` too where 2.55.0 added it, and none
/// that 3.5.0 added.
#[test]
fn the_names_are_the_documents() {
    for generation in Generation::ALL {
        let document = generation.document();
        let read = document.functions().expect("the document is read");
        let mut expected: BTreeSet<&str> = read.keys().map(String::as_str).collect();
        match generation {
            Older => assert!(expected.insert("info")),
            Newer => expected.retain(|name| !name.starts_with("ts_of_")),
        }
        assert_eq!(names(generation.table()), expected);
    }
    assert_eq!(described(Older, "info"), described(Newer, "info"));
    assert_eq!(described(Older, "info").version, "3.5.3");
}

/// "Where a document disagrees with the repository's table on a name or a kind, the document decides here and the
/// difference is recorded": no kind differs, and the counts that differ are not taken.
#[test]
fn the_disagreements_are_those_that_are_told() {
    let left_out: Vec<&str> = IN_NEITHER.to_vec();
    let newer = Disagreements {
        added: vec![],
        left_out: left_out.clone(),
        kinds: vec![],
        counts: vec!["label_join"],
    };
    let older = Disagreements {
        added: vec!["holt_winters"],
        left_out: [vec!["double_exponential_smoothing"], left_out].concat(),
        ..newer.clone()
    };
    for (generation, expected) in [(Older, older), (Newer, newer)] {
        assert_eq!(disagreements::of(generation.functions()), expected);
    }
}

/// "A shared name keeps the repository's count of kinds and its extra": so that each of its rows is the repository's.
#[test]
fn shared_names_are_the_repositorys() {
    for generation in Generation::ALL {
        let mut shared = 0;
        for (name, signature) in generation.table() {
            let shown = &described(generation, name).shown;
            let counted = signature.kinds.len();
            let kinds: Vec<Kind> = shown.kinds().take(counted).collect();
            assert_eq!(signature.kinds, kinds, "{name}");
            match functions::signature(name) {
                Some(known) => {
                    assert_eq!(row(signature), row(known), "{name}");
                    shared += 1;
                }
                None => assert_eq!((*name, shown.arguments.len()), ("holt_winters", counted)),
            }
        }
        let expected = generation.table().len() - usize::from(generation == Older);
        assert_eq!(shared, expected);
    }
}

/// What the readings say of single names: counts and extras that the repository decides, experimental names, names that
/// are the same as another.
#[test]
fn single_names_are_as_told() {
    use Kind::{Matrix, Scalar, String, Vector};
    let four = vec![Vector, String, String, String];
    for generation in Generation::ALL {
        let table = generation.table();
        for (name, kinds, extra) in [
            ("label_join", four.clone(), Extra::Unlimited),
            ("round", vec![Vector, Scalar], Extra::Upper(1)),
            ("year", vec![Vector], Extra::Upper(1)),
            ("info", vec![Vector, Vector], Extra::Upper(1)),
            ("sort_by_label", vec![Vector, String], Extra::Unlimited),
            ("sort_by_label_desc", vec![Vector, String], Extra::Unlimited),
            ("mad_over_time", vec![Matrix], Extra::Fixed),
            ("sort_desc", vec![Vector], Extra::Fixed),
        ] {
            assert_eq!(row(&table[name]), (kinds, extra, Vector), "{name}");
        }
        for name in ["time", "pi"] {
            assert_eq!(row(&table[name]), (vec![], Extra::Fixed, Scalar));
        }
        let shown = &described(generation, "label_join").shown;
        assert_eq!((shown.arguments.len(), shown.goes_on), (5, true));
        let without_kinds = table.values().filter(|each| each.kinds.is_empty());
        let mut without_kinds = without_kinds.map(|each| each.extra);
        assert!(without_kinds.all(|extra| extra == Extra::Fixed));
        assert!(table.values().all(|each| each.result != String));
    }
}

/// What the command prints: a line for each function of both documents, and for each generation what disagrees.
#[test]
fn the_report_has_every_line() {
    let report = report::text().expect("the documents are read");
    let lines: Vec<&str> = report.lines().collect();
    assert_eq!(lines.len(), 1 + 76 + 1 + 80 + 2 * 5);
    let has = |line: &str| assert!(lines.contains(&line), "{line}\n{report}");
    has("   30  abs(vector): as the repository: vector, fixed");
    has("  374  holt_winters(matrix, scalar, scalar): the repository does not have it");
    has("  504  info(vector, [vector]): as the repository: vector vector, up to 1");
    has("  633  time(): as the repository: no kinds, fixed");
    has("  another kind: none");
    has("  another count or extra as shown: label_join");
    let other = lines.iter().filter(|line| line.contains("another count"));
    assert_eq!(other.count(), 4);
    let left_out = IN_NEITHER.join(" ");
    has(&format!(
        "  the repository has it, the document does not: {left_out}"
    ));
}
