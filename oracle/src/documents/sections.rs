//! Which code of a document describes a function: that of a section under its name, or a list item that begins with it.

use super::blocks::{Block, Code, Form};
use super::signature::{self, Shown};
use std::collections::BTreeMap;

/// Functions with the line and the signature that describes them.
type Found = BTreeMap<String, (usize, Shown)>;

/// What a section has for the function that its heading names, with the line.
enum Source {
    Own(usize, Shown),
    /// "Same as `sort`, ..": the signature of that one.
    SameAs(usize, String),
}

/// Every function that a heading names, as `## histogram_count() and histogram_sum()`, or that a list item begins with,
/// as `* pi(): returns pi`. A signature that is shown twice must be the same both times.
pub fn described(blocks: &[Block]) -> Result<Found, String> {
    let mut found = Found::new();
    let mut same = Vec::new();
    for (place, block) in blocks.iter().enumerate() {
        match block.form {
            Form::Heading(level) => {
                let section = section(&blocks[place + 1..], level);
                for name in headed(block) {
                    match source(section, &name) {
                        Some(Source::Own(line, shown)) => add(&mut found, name, line, shown)?,
                        Some(Source::SameAs(line, other)) => same.push((name, line, other)),
                        None => return Err(nowhere(block.line, &name)),
                    }
                }
            }
            Form::Item => {
                let items = block.codes.first().filter(|code| is_described(code));
                if let Some((name, shown)) = items.and_then(|code| signature::of(&code.text)) {
                    add(&mut found, name.into(), block.line, shown)?;
                }
            }
            Form::Paragraph => {}
        }
    }
    for (name, line, other) in same {
        let own = found.get(&other).map(|(_, shown)| shown.clone());
        let shown = own.ok_or_else(|| nowhere(line, &other))?;
        add(&mut found, name, line, shown)?;
    }
    agree(&found, blocks)?;
    Ok(found)
}

/// The blocks up to the next heading that is not below this one.
fn section(behind: &[Block], level: usize) -> &[Block] {
    let is_next = |block: &Block| matches!(block.form, Form::Heading(other) if other <= level);
    let end = behind.iter().position(is_next).unwrap_or(behind.len());
    &behind[..end]
}

/// The names in a heading, which stand with empty parentheses.
fn headed(heading: &Block) -> Vec<String> {
    let called = heading.codes.iter().filter_map(|code| {
        let (name, shown) = signature::of(&code.text)?;
        shown.arguments.is_empty().then(|| name.to_string())
    });
    called.collect()
}

/// Whether a list item begins with the code and goes on about it.
fn is_described(code: &Code) -> bool {
    code.begins() && code.behind.starts_with(':')
}

/// The first signature with kinds; empty parentheses are a signature where a block begins with them and none has kinds.
fn source(section: &[Block], name: &str) -> Option<Source> {
    let codes = || section.iter().flat_map(|block| &block.codes);
    let of_name = |code: &Code| {
        let (shown_name, shown) = signature::of(&code.text)?;
        (shown_name == name).then_some((code.line, shown))
    };
    let with_kinds = codes().filter_map(of_name);
    let with_kinds = with_kinds.filter(|(_, shown)| !shown.arguments.is_empty());
    let without = codes().filter(|code| code.begins()).filter_map(of_name);
    let same = codes()
        .filter(|code| code.is_first && code.before == "Same as" && code.behind.starts_with(','));
    let mut own = with_kinds.chain(without);
    own.next()
        .map(|(line, shown)| Source::Own(line, shown))
        .or_else(|| {
            let mut same = same.map(|code| Source::SameAs(code.line, code.text.clone()));
            same.next()
        })
}

/// Takes a function over; one that is described twice stays at its first line.
fn add(found: &mut Found, name: String, line: usize, shown: Shown) -> Result<(), String> {
    match found.get(&name) {
        Some((first, other)) if *other != shown => Err(otherwise(line, &name, *first)),
        Some(_) => Ok(()),
        None => {
            found.insert(name, (line, shown));
            Ok(())
        }
    }
}

/// Whatever code of the document shows kinds is the signature of a function that is described.
fn agree(found: &Found, blocks: &[Block]) -> Result<(), String> {
    for code in blocks.iter().flat_map(|block| &block.codes) {
        let shown = signature::of(&code.text);
        let Some((name, shown)) = shown.filter(|(_, shown)| !shown.arguments.is_empty()) else {
            continue;
        };
        match found.get(name) {
            None => return Err(nowhere(code.line, name)),
            Some((line, other)) if *other != shown => {
                return Err(otherwise(code.line, name, *line));
            }
            Some(_) => {}
        }
    }
    Ok(())
}

fn nowhere(line: usize, name: &str) -> String {
    format!("line {line}: `{name}` is nowhere described")
}

fn otherwise(line: usize, name: &str, other: usize) -> String {
    format!("line {line}: `{name}` has other kinds than on line {other}")
}
