//! What the document says of the two server generations: their functions, pages with the answers of both checks, and
//! which of the two accept a page.

use crate::called::{called, last};
use crate::document::{pages, quoted, rows, DOCUMENT};
use crate::tables::{all_functions, generations};
use sandzguli::{check_newer, check_older, Generations, Refusal, Rule};
use std::collections::BTreeSet;

/// The document's word for an answer.
fn word(answer: Generations) -> String {
    format!("{answer:?}").to_lowercase()
}

#[test]
fn generations_have_their_words_and_servers() {
    let alone = [Generations::Older, Generations::Newer];
    for (generation, answer) in generations().into_iter().zip(alone) {
        assert_eq!(generation.name, word(answer));
        assert_eq!(format!("{} alone", generation.server), answer.to_string());
        assert_eq!(generation.functions.len(), generation.count);
    }
}

/// Every function of the three tables, called with operands of its kinds.
#[test]
fn generations_have_the_functions_of_their_rows() {
    let generations = generations();
    let all = all_functions();
    assert_eq!(all.len(), 92);
    for function in all {
        let page = called(&function);
        let has = |index: usize| generations[index].functions.contains_key(&function.name);
        let accepting = [has(0), has(1)];
        let outcomes = [check_older, check_newer].map(|check| check(&page.to_bytes()));
        let unknown = Err(Refusal::new(Rule::UnknownFunction, last(&page)));
        let expected = accepting.map(|accepts| match accepts {
            true => Ok(function.signature.result),
            false => unknown,
        });
        assert_eq!(outcomes, expected, "{}", function.name);
        let given = sandzguli::generations(&page.to_bytes());
        assert_eq!([given.older_accepts(), given.newer_accepts()], accepting);
    }
}

/// Those that the columns of the two checks have, and all four answers.
#[test]
fn pages_have_the_generations_that_accept_them() {
    let mut seen = BTreeSet::new();
    for [page, older, newer, answer] in rows(["Page", "Older check", "Newer check", "Generations"])
    {
        let given = sandzguli::generations(&pages(page)[0]);
        assert_eq!(word(given), answer, "{page}");
        let accepting = [older, newer].map(|cell| !quoted(cell)[0].starts_with("refused "));
        assert_eq!([given.older_accepts(), given.newer_accepts()], accepting);
        seen.insert(answer);
    }
    assert_eq!(seen.len(), Generations::ALL.len());
}

#[test]
fn answers_have_their_numbers() {
    let words = Generations::ALL.map(|answer| format!("{} {}", answer.number(), word(answer)));
    let told = format!("`sandzguli_generations`: {}.", words.join(", "));
    assert!(DOCUMENT.contains(&told), "{told}");
}
