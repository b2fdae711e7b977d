//! Which pages are one query, and which are two: `same_query`, and the copies by which it decides.

#[path = "same_query/settled.rs"]
mod settled;
#[path = "same_query/spellings.rs"]
mod spellings;
mod support;

use sandzguli::page::{AtModifier, BinModifier, Code, Page, Record};
use sandzguli::{same_query, Refusal, RefusedPage, Rule, COPY_BYTES, PAGE_BYTES};
use spellings::QUERIES;
use support::Entry;

const UP: &[u8] = b"\x02\x02up\x00";

/// Bytes in hexadecimal.
fn bytes(digits: &str) -> Vec<u8> {
    let byte = |place| u8::from_str_radix(&digits[place..place + 2], 16).expect("hexadecimal");
    (0..digits.len()).step_by(2).map(byte).collect()
}

/// Each page of the spellings, and its query's number.
fn spelled() -> Vec<(Vec<u8>, usize)> {
    let queries = QUERIES.iter().enumerate();
    let pages = queries.flat_map(|(query, pages)| pages.iter().map(move |page| (page, query)));
    pages.map(|(page, query)| (bytes(page), query)).collect()
}

/// The accepted pages of the kept list, each with its copy.
fn accepted() -> Vec<(Vec<u8>, Vec<u8>)> {
    let copied = |entry: Entry| {
        let copy = sandzguli::copy(&entry.page).ok()?;
        Some((entry.page, copy))
    };
    let entries = support::entries().into_iter();
    entries.filter_map(copied).collect()
}

/// Every page with every page: itself, and both ways round.
#[test]
fn pages_are_one_query_where_the_spellings_are() {
    for (first, query) in spelled() {
        for (second, other) in spelled() {
            let expected = Ok(query == other);
            assert_eq!(
                same_query(&first, &second),
                expected,
                "{first:x?} {second:x?}"
            );
        }
    }
}

#[test]
fn the_first_spelling_is_the_copy_of_all() {
    for pages in QUERIES {
        for page in *pages {
            assert_eq!(sandzguli::copy(&bytes(page)), Ok(bytes(pages[0])), "{page}");
        }
    }
}

#[test]
fn pages_that_differ_in_a_field_are_two_queries() {
    let pages = settled::pages();
    for (index, first) in pages.iter().enumerate() {
        for (other, second) in pages.iter().enumerate() {
            let same = same_query(&first.to_bytes(), &second.to_bytes());
            assert_eq!(same, Ok(index == other), "{first:?} {second:?}");
        }
    }
}

#[test]
fn pages_in_which_nothing_is_to_change_are_their_copies() {
    for page in settled::pages() {
        let page = page.to_bytes();
        assert_eq!(sandzguli::copy(&page).as_ref(), Ok(&page));
    }
}

/// Pages that are neighbours in the order of their copies, so that equal copies are beside each other.
#[test]
fn two_pages_are_one_query_where_their_copies_are_equal() {
    let mut pages = accepted();
    pages.sort_by(|(_, one), (_, other)| one.cmp(other));
    let mut repeated = 0;
    for neighbours in pages.windows(6) {
        let (first, copy) = &neighbours[0];
        for (second, other) in neighbours {
            let expected = Ok(copy == other);
            assert_eq!(same_query(first, second), expected);
            assert_eq!(same_query(second, first), expected);
            repeated += usize::from(first != second && copy == other);
        }
    }
    assert!(repeated > 0, "no two pages of the list are one query");
}

#[test]
fn a_page_and_its_copy_are_one_query() {
    for (page, copy) in accepted() {
        let expected = if copy.len() <= PAGE_BYTES {
            assert_eq!(sandzguli::copy(&copy).as_ref(), Ok(&copy));
            Ok(true)
        } else {
            Err(RefusedPage::Second(Refusal::new(Rule::PastLimit, 0)))
        };
        assert_eq!(same_query(&page, &copy), expected);
    }
}

/// The page with every @ and offset of one expression in the other order.
fn reordered(page: &[u8]) -> Vec<u8> {
    let mut page = Page::read(page).expect("a page");
    let mut index = 1;
    while index < page.records.len() {
        let pair = &mut page.records[index - 1..=index];
        if let [Record::At(_), Record::Offset(_)] | [Record::Offset(_), Record::At(_)] = pair {
            pair.swap(0, 1);
            index += 1;
        }
        index += 1;
    }
    page.to_bytes()
}

#[test]
fn at_and_offset_come_in_either_order() {
    let mut moved = 0;
    for (page, copy) in accepted() {
        let other = reordered(&page);
        moved += usize::from(other != page);
        assert_eq!(sandzguli::copy(&other), Ok(copy));
        assert_eq!(same_query(&page, &other), Ok(true));
    }
    assert!(moved > 50, "{moved} pages of the list have both");
}

/// Also where both are the same bytes.
#[test]
fn a_refused_page_is_named() {
    for entry in support::entries() {
        let page = entry.page.as_slice();
        if let Err(refusal) = sandzguli::check(page) {
            assert_eq!(same_query(page, UP), Err(RefusedPage::First(refusal)));
            assert_eq!(same_query(UP, page), Err(RefusedPage::Second(refusal)));
            assert_eq!(same_query(page, page), Err(RefusedPage::First(refusal)));
            assert_eq!(same_query(page, b""), Err(RefusedPage::First(refusal)));
        }
    }
}

#[test]
fn what_is_said_of_a_refused_page_begins_with_its_place() {
    let refused = [same_query(b"", UP), same_query(UP, b"")];
    let said = refused.map(|refused| refused.unwrap_err().to_string());
    let refusal = Refusal::new(Rule::OperandsMissing, 0);
    assert_eq!(
        said,
        ["first", "second"].map(|place| format!("{place} page {refusal}"))
    );
}

/// `and` between metrics with such names, after these records on the first: so many with a modifier, the others
/// without. In a copy all have one.
fn joined(names: &[String], times: &[Record], with_modifier: usize) -> Vec<u8> {
    let mut page = Page::from([Record::selector(&names[0], [])]);
    page.extend(times.iter().cloned());
    for (name, index) in names[1..].iter().zip(0..) {
        let and = match index < with_modifier {
            true => Record::binary_with(Code::Land, BinModifier::default()),
            false => Record::binary(Code::Land),
        };
        page.extend([Record::selector(name, []), and]);
    }
    page.to_bytes()
}

#[test]
fn copies_that_are_no_pages_are_compared() {
    let names = vec!["a".repeat(58); 120];
    let [at, offset] = [Record::At(AtModifier::End), Record::offset(1)];
    let times = [at.clone(), offset.clone()];
    let page = joined(&names, &[offset, at], 0);
    assert!(sandzguli::copy(&page).is_ok_and(|copy| copy.len() > PAGE_BYTES));
    assert_eq!(same_query(&page, &joined(&names, &times, 0)), Ok(true));
    assert_eq!(same_query(&joined(&names, &times, 100), &page), Ok(true));
    assert_eq!(
        same_query(&page, &joined(&names, &times[..1], 0)),
        Ok(false)
    );
    assert_eq!(
        same_query(&page, &joined(&names[1..], &times, 0)),
        Ok(false)
    );
}

/// 128 metrics in 8,192 bytes.
#[test]
fn the_longest_copies_are_compared() {
    let mut names = vec!["a".repeat(58); 125];
    names.extend(vec!["a".repeat(59); 3]);
    let page = joined(&names, &[], 0);
    let copy = sandzguli::copy(&page).expect("a query");
    assert_eq!((page.len(), copy.len()), (PAGE_BYTES, COPY_BYTES));
    assert_eq!(same_query(&page, &page), Ok(true));
    names[127] = "b".repeat(59);
    assert_eq!(same_query(&page, &joined(&names, &[], 0)), Ok(false));
}
