//! The functions answer as the Rust does on the kept list, with the function table too, with the functions of either
//! server generation and as the operators document asks, and on the names beside it; the list's records are read, and
//! written as they stand there.

mod support;

use sandzguli::page::Page;
use sandzguli::{Generations, Kind, Refusal, Rule};
use support::Entry;

/// The outcome that the list has for a page.
fn outcome(entry: &Entry) -> Result<Kind, Refusal> {
    of_word(entry.word)
}

/// The outcome that a word stands for; of one that wrote bytes the kind alone.
fn of_word(word: u64) -> Result<Kind, Refusal> {
    if word < 1 << 63 {
        return Ok(Kind::of_number(word & 3).expect("a kind"));
    }
    let rule = Rule::of_number(word >> 16 & 0xff).expect("a rule");
    let record = (word & 0xffff) as usize;
    Err(Refusal::new(rule, record))
}

#[test]
fn calls_answer_as_the_list_has_it() {
    for entry in support::entries() {
        let page = entry.page.as_slice();
        let outcome = outcome(&entry);
        assert_eq!(sandzguli::check(page), outcome);
        let canonical = sandzguli::canonical(page).map(String::into_bytes);
        assert_eq!(canonical, outcome.map(|_| entry.canonical));
        let split = sandzguli::split(page).map(String::into_bytes);
        assert_eq!(split, outcome.map(|_| entry.split));
        assert_eq!(sandzguli::copy(page), outcome.map(|_| entry.copy));
        let is_joint = outcome.is_err_and(|refusal| refusal.rule == Rule::LabelInBothLists);
        let (start, length) = entry.label;
        let label = is_joint.then(|| &page[start..start + length]);
        assert_eq!(sandzguli::joint_label(page).map(str::as_bytes), label);
    }
}

#[test]
fn the_table_check_answers_as_the_list_has_it() {
    let mut refused = [0; 2];
    for entry in support::entries() {
        let outcome = of_word(entry.table);
        assert_eq!(sandzguli::check_table(&entry.page), outcome);
        match outcome.map_err(|refusal| refusal.rule) {
            Err(Rule::UnknownFunction) => refused[0] += 1,
            Err(Rule::UnlikeSignature) => refused[1] += 1,
            _ => assert_eq!(entry.table, entry.word),
        }
    }
    assert!(refused.iter().all(|count| *count > 500), "{refused:?}");
}

/// All four answers occur, each often enough.
#[test]
fn both_generations_answer_as_the_list_has_it() {
    let mut counts = [0; 4];
    for entry in support::entries() {
        assert_eq!(sandzguli::check_older(&entry.page), of_word(entry.older));
        assert_eq!(sandzguli::check_newer(&entry.page), of_word(entry.newer));
        let answer = Generations::of_number(entry.generations);
        assert_eq!(Some(sandzguli::generations(&entry.page)), answer);
        counts[entry.generations as usize] += 1;
    }
    assert!(counts.iter().all(|count| *count > 50), "{counts:?}");
}

#[test]
fn the_operators_check_answers_as_the_list_has_it() {
    let mut refused = 0;
    for entry in support::entries() {
        let outcome = of_word(entry.operators);
        assert_eq!(sandzguli::check_operators(&entry.page), outcome);
        match outcome.map_err(|refusal| refusal.rule) {
            Err(Rule::LimitParameter) => refused += 1,
            _ => assert_eq!(entry.operators, entry.word),
        }
    }
    assert!(refused > 400, "{refused}");
}

#[test]
fn signatures_are_those_of_the_list() {
    let mut known = 0;
    for entry in support::signatures() {
        let mut out = [0xa5; 10];
        let written = sandzguli::signature_into(&entry.name, &mut out);
        let kind = written.map(|written| written.kind);
        assert_eq!(kind, of_word(entry.word));
        let length = written.map_or(0, |written| written.bytes);
        assert_eq!(out[..length], entry.written);
        assert!(out[length..].iter().all(|byte| *byte == 0xa5));
        assert_eq!(sandzguli::signature(&entry.name).is_some(), kind.is_ok());
        if let Some(short) = length.checked_sub(1) {
            let mut out = [0xa5; 10];
            let refusal = sandzguli::signature_into(&entry.name, &mut out[..short]).unwrap_err();
            assert_eq!(refusal, Refusal::new(Rule::OutputTooShort, 0));
            assert_eq!(out, [0xa5; 10]);
            known += 1;
        }
    }
    assert_eq!(known, 91);
}

#[test]
fn lent_texts_are_those_of_the_list() {
    for entry in support::entries() {
        let outcome = outcome(&entry);
        let mut out = vec![0; entry.canonical.len()];
        let text = sandzguli::canonical_str(&entry.page, &mut out).map(str::as_bytes);
        assert_eq!(text, outcome.map(|_| entry.canonical.as_slice()));
        let mut out = vec![0; entry.split.len()];
        let text = sandzguli::split_str(&entry.page, &mut out).map(str::as_bytes);
        assert_eq!(text, outcome.map(|_| entry.split.as_slice()));
    }
}

#[test]
fn lent_buffers_are_as_before_behind_the_text() {
    for entry in support::entries().iter().filter(|entry| entry.word < 4) {
        let mut out = vec![0xa5; entry.split.len() + 1];
        let written = sandzguli::split_into(&entry.page, &mut out).expect("there is room");
        assert_eq!(written.bytes, entry.split.len());
        assert_eq!(out.pop(), Some(0xa5));
        assert_eq!(out, entry.split);
        let mut short = vec![0xa5; entry.canonical.len() - 1];
        let refusal = sandzguli::canonical_into(&entry.page, &mut short).unwrap_err();
        assert_eq!(refusal.rule, Rule::OutputTooShort);
        assert!(short.iter().all(|byte| *byte == 0xa5));
    }
}

/// The bound that is proved of canonical texts holds of the Rust's.
#[test]
fn canonical_texts_have_four_bytes_a_byte_and_128_a_record_at_most() {
    for entry in support::entries().iter().filter(|entry| entry.word < 4) {
        let records = Page::read(&entry.page)
            .expect("the page is accepted")
            .records
            .len();
        assert!(entry.canonical.len() <= 4 * entry.page.len() + 128 * records);
    }
}

#[test]
fn pages_are_read_and_written_again() {
    let (mut accepted, mut written) = (0, 0);
    for entry in support::entries() {
        accepted += u32::from(outcome(&entry).is_ok());
        match (Page::read(&entry.page), outcome(&entry)) {
            (Ok(page), _) => {
                assert_eq!(page.to_bytes(), entry.page);
                assert_eq!(Page::read(&page.to_bytes()), Ok(page));
                written += 1;
            }
            (Err(unread), Ok(_)) => panic!("an accepted page has {unread}"),
            (Err(unread), Err(refusal)) if refusal.record < unread.record => {}
            // The same record: what cannot be read comes first.
            (Err(unread), Err(refusal)) => assert_eq!(unread, refusal),
        }
    }
    // Many refused pages end in bytes that are no record; the others are written again too.
    assert!(written > accepted, "{written} pages, {accepted} accepted");
}

#[test]
fn what_check_cannot_read_is_not_read() {
    let unreadable = [Rule::BadField, Rule::PastLimit, Rule::BadText];
    for entry in support::entries() {
        if let Err(refusal) = outcome(&entry) {
            if unreadable.contains(&refusal.rule) {
                assert_eq!(Page::read(&entry.page), Err(refusal));
            }
        }
    }
}
