//! Numbers, names and sizes are those of the library's sources, of its archive and of the C header.

use sandzguli::page::Code;
use sandzguli::{Generations, Kind, Rule};

const LIBRARY: &str = include_str!("../../../crates/rules/src/refusal.rt");
const HEADER: &str = include_str!("../../../include/sandzguli.h");
const NAMES: &str = include_str!("../../../crates/names/specs/Table.antt");
const CODES: &str = include_str!("../../../crates/records/specs/Code.antt");

extern "C" {
    fn sandzguli_pattern(pattern: *const u8, pattern_len: usize) -> u64;
}

/// `TwoWords` as `SANDZGULI_TWO_WORDS`.
fn constant(case: &str) -> String {
    let mut constant = "SANDZGULI".to_string();
    for letter in case.chars() {
        if letter.is_uppercase() {
            constant.push('_');
        }
        constant.push(letter.to_ascii_uppercase());
    }
    constant
}

/// A line of the header's enums: `NAME = NUMBER, /* words */`.
#[derive(Debug, PartialEq)]
struct Constant {
    name: String,
    number: u64,
    words: String,
}

fn constants() -> Vec<Constant> {
    let constant = |line: &str| {
        let (name, rest) = line.trim().split_once(" = ")?;
        let (digits, comment) = rest.split_once(' ').unwrap_or((rest, ""));
        let words = comment.trim().trim_start_matches("/* ");
        Some(Constant {
            name: name.into(),
            number: digits.trim_end_matches(',').parse().ok()?,
            words: words.trim_end_matches(" */").into(),
        })
    };
    HEADER.lines().filter_map(constant).collect()
}

/// The number that the header defines under a name.
fn defined(name: &str) -> u64 {
    let begins = format!("#define SANDZGULI_{name} ");
    let number = HEADER.lines().find_map(|line| line.strip_prefix(&begins));
    number.and_then(|digits| digits.parse().ok()).expect(name)
}

#[test]
fn rules_have_the_librarys_cases_and_numbers() {
    for rule in Rule::ALL {
        let line = format!("    {rule:?} = {},\n", rule.number());
        assert!(LIBRARY.contains(&line), "{line}");
        assert_eq!(Rule::of_number(rule.number()), Some(*rule));
    }
    let (_, behind) = LIBRARY.split_once("pub enum Refusal {\n").expect("the cases");
    let (cases, _) = behind.split_once("}\n").expect("their end");
    assert_eq!(Rule::ALL.len(), cases.lines().count());
}

/// 35, 36, 39 and 40 are numbers of no rule yet.
#[test]
fn rules_have_the_numbers_1_to_34_and_37_38_41_and_42() {
    let numbers: Vec<_> = Rule::ALL.iter().map(|rule| rule.number()).collect();
    assert_eq!(
        numbers,
        (1..=34).chain([37, 38, 41, 42]).collect::<Vec<_>>()
    );
}

/// For every number that a word can hold, and some above.
#[test]
fn names_are_the_archives() {
    for number in (0..=300).chain([u64::MAX]) {
        let rule = Rule::of_number(number).map(Rule::name);
        assert_eq!(sandzguli::refusal_name(number).as_deref(), rule);
        let kind = Kind::of_number(number).map(|kind| kind.to_string());
        assert_eq!(sandzguli::kind_name(number), kind);
    }
}

#[test]
fn the_header_has_the_same_kinds_and_refusals() {
    let kinds = Kind::ALL.map(|kind| Constant {
        name: constant(&format!("{kind:?}")),
        number: kind.number(),
        words: String::new(),
    });
    let rules = Rule::ALL.iter().map(|rule| Constant {
        name: constant(&format!("{rule:?}")),
        number: rule.number(),
        words: rule.name().into(),
    });
    let expected: Vec<_> = kinds.into_iter().chain(rules).collect();
    assert_eq!(constants()[..expected.len()], expected);
}

/// What stands after these: the answers to patterns, and those that tell which servers accept a query.
fn answers() -> [Vec<Constant>; 2] {
    let mut patterns = constants().split_off(Kind::ALL.len() + Rule::ALL.len());
    let generations = patterns.split_off(3);
    [patterns, generations]
}

/// What is said of a letter, an optional one, and a class of letters.
#[test]
fn the_header_has_the_archives_answers_to_patterns() {
    let patterns = [
        ("MISSES_EMPTY", "a"),
        ("MATCHES_EMPTY", "a?"),
        ("NOT_COVERED", "[a]"),
    ];
    let expected = patterns.map(|(name, pattern)| {
        // SAFETY: the pattern is lent with its length.
        let word = unsafe { sandzguli_pattern(pattern.as_ptr(), pattern.len()) };
        (format!("SANDZGULI_PATTERN_{name}"), word)
    });
    let [answers, _] = answers();
    let answers = answers
        .into_iter()
        .map(|answer| (answer.name, answer.number));
    assert_eq!(answers.collect::<Vec<_>>(), expected);
}

#[test]
fn the_header_has_the_same_generations() {
    let expected = Generations::ALL.map(|generations| Constant {
        name: constant(&format!("{generations:?}")),
        number: generations.number(),
        words: generations.to_string(),
    });
    let [_, generations] = answers();
    assert_eq!(generations, expected);
    for answer in Generations::ALL {
        assert_eq!(Generations::of_number(answer.number()), Some(answer));
    }
}

#[test]
fn header_and_definitions_have_the_same_sizes() {
    let sizes = [
        ("PAGE_BYTES", sandzguli::PAGE_BYTES),
        ("RECORDS", sandzguli::RECORDS),
        ("COPY_BYTES", sandzguli::COPY_BYTES),
        ("CANONICAL_BYTES", sandzguli::CANONICAL_BYTES),
        ("NAME_BYTES", sandzguli::NAME_BYTES),
        ("SIGNATURE_BYTES", sandzguli::SIGNATURE_BYTES),
        ("STACK_BYTES", sandzguli::STACK_BYTES),
    ];
    for (name, size) in sizes {
        assert_eq!(defined(name), size as u64, "{name}");
    }
    let proved = format!("\nlongest_name = {}\n", sandzguli::NAME_BYTES);
    assert!(NAMES.contains(&proved));
}

#[test]
fn header_archive_and_binding_have_one_version() {
    let header = ["MAJOR", "MINOR", "PATCH"].map(|part| defined(&format!("VERSION_{part}")));
    let (major, minor, patch) = sandzguli::version();
    assert_eq!(header, [major, minor, patch]);
    let binding = env!("CARGO_PKG_VERSION");
    assert_eq!(binding, format!("{major}.{minor}.{patch}"));
}

#[test]
fn codes_have_the_definitions_tokens_in_order() {
    let tokens = CODES
        .split_once("tokens =\n")
        .expect("the list of tokens")
        .1;
    let tokens = tokens.split_once("[]").expect("its end").0;
    let tokens: Vec<_> = tokens.split('"').skip(1).step_by(2).collect();
    assert_eq!(tokens, Code::ALL.map(Code::word));
    for (code, number) in Code::ALL.into_iter().zip(1..) {
        assert_eq!(code.number(), number);
        assert_eq!(Code::of_number(number), Some(code));
        assert_eq!(code.is_aggregator(), number > 16);
    }
}
