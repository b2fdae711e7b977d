//! What was read out of both documents, line by line, and how it stands to the repository's table.

use super::disagreements::{self, has_other_count, has_other_kinds};
use super::Generation;
use crate::documents::signature::{Argument, Shown};
use crate::functions;
use crate::page::record::{Extra, Kind};

/// Every name of both documents, then the disagreements of each generation.
pub fn text() -> Result<String, String> {
    let mut lines = Vec::new();
    for generation in Generation::ALL {
        let document = generation.document();
        let functions = document.functions()?;
        let count = functions.len();
        lines.push(format!("{}: {count} functions", document.version));
        let described = functions.iter().map(|(name, described)| {
            let (line, shown) = (described.line, &described.shown);
            let standing = standing(name, shown);
            format!("{line:>5}  {name}({}): {standing}", arguments(shown))
        });
        lines.extend(described);
    }
    lines.extend(Generation::ALL.into_iter().flat_map(disagreements_of));
    lines.push(String::new());
    Ok(lines.join("\n"))
}

/// The kinds, optional ones in brackets.
fn arguments(shown: &Shown) -> String {
    let argument = |argument: &Argument| match argument.is_optional {
        true => format!("[{}]", kind(argument.kind)),
        false => kind(argument.kind).to_string(),
    };
    let mut words: Vec<String> = shown.arguments.iter().map(argument).collect();
    words.extend(shown.goes_on.then(|| "...".to_string()));
    words.join(", ")
}

fn kind(kind: Kind) -> &'static str {
    match kind {
        Kind::Vector => "vector",
        Kind::Scalar => "scalar",
        Kind::Matrix => "matrix",
        Kind::String => "string",
    }
}

/// How the repository's table has the function.
fn standing(name: &str, shown: &Shown) -> String {
    let Some(known) = functions::signature(name) else {
        return "the repository does not have it".into();
    };
    let kinds = match known.kinds.as_slice() {
        [] => "no kinds".to_string(),
        kinds => kinds
            .iter()
            .copied()
            .map(kind)
            .collect::<Vec<_>>()
            .join(" "),
    };
    let extra = match known.extra {
        Extra::Fixed => "fixed".to_string(),
        Extra::Unlimited => "unlimited".to_string(),
        Extra::Upper(upper) => format!("up to {upper}"),
    };
    let words = match (has_other_kinds(known, shown), has_other_count(known, shown)) {
        (true, _) => "the repository has another kind",
        (_, true) => "the repository has another count or extra",
        _ => "as the repository",
    };
    format!("{words}: {kinds}, {extra}")
}

fn disagreements_of(generation: Generation) -> Vec<String> {
    let table = generation.table();
    let letters: usize = table.keys().map(|name| name.len()).sum();
    let found = disagreements::of(generation.functions());
    let rows = [
        ("the document has it, the repository does not", found.added),
        (
            "the repository has it, the document does not",
            found.left_out,
        ),
        ("another kind", found.kinds),
        ("another count or extra as shown", found.counts),
    ];
    let row = |(words, names): (&str, Vec<&str>)| match names.as_slice() {
        [] => format!("  {words}: none"),
        names => format!("  {words}: {}", names.join(" ")),
    };
    let (version, count) = (generation.version(), table.len());
    let head = format!("{generation:?}, {version}: {count} functions, {letters} letters");
    [head].into_iter().chain(rows.map(row)).collect()
}
