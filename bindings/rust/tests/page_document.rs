//! docs/PAGE.md tells the truth: its tables, its limits, and the pages that it takes apart byte by byte.

#[path = "page_document/apart.rs"]
mod apart;
#[path = "table/called.rs"]
mod called;
#[path = "page_document/document.rs"]
mod document;
#[path = "page_document/generations.rs"]
mod generations;
#[path = "page_document/limits.rs"]
mod limits;
#[path = "page_document/signatures.rs"]
mod signatures;
#[path = "page_document/tables.rs"]
mod tables;

use document::{bracketed, bytes, codes, number, number_bytes, pages, quoted, rows, DOCUMENT};
use sandzguli::page::{Code, Function, LabelModifier, Page, Record};
use sandzguli::{Kind, Refusal};

/// A refusal and its record.
fn refused(refusal: Refusal) -> String {
    format!("refused {} at {}", refusal.number(), refusal.record)
}

/// The canonical text of a page, or its refusal and record.
fn answer(page: &[u8]) -> String {
    sandzguli::canonical(page).unwrap_or_else(refused)
}

/// The document's word for a record.
fn name(record: &Record) -> &'static str {
    match record {
        Record::Number(_) => "number",
        Record::String(_) => "string",
        Record::Selector { .. } => "selector",
        Record::Range(_) => "range",
        Record::Subquery { .. } => "subquery",
        Record::At(_) => "at",
        Record::Offset(_) => "offset",
        Record::Unary => "unary",
        Record::Paren => "paren",
        Record::Binary { .. } => "binary",
        Record::Aggregate { .. } => "aggregate",
        Record::Call { .. } => "call",
        _ => panic!("a record that the document does not have"),
    }
}

#[test]
fn numbers_are_written_so() {
    for [notation, value] in rows(["Bytes", "Number"]) {
        let written = bytes(quoted(notation)[0]);
        let page = [vec![0, 0], written.clone()].concat();
        if value.starts_with("none: ") {
            assert_eq!(answer(&page), "refused 1 at 0", "{notation}");
        } else {
            let value = number(value.split(", ").next().expect("a number"));
            assert_eq!(number_bytes(value), written);
            assert_eq!(answer(&page), value.to_string());
        }
    }
}

#[test]
fn every_page_in_a_table_has_its_answer() {
    let answered = rows(["Page", "Answer"]);
    assert_eq!(answered.len(), rows(["Answer"]).len());
    let copied = rows(["Page", "Copy"]);
    assert_eq!(answered.len() + copied.len(), rows(["Page"]).len());
    for [notations, answers] in answered {
        let pages = pages(notations);
        let given: Vec<_> = pages.iter().map(|page| answer(page)).collect();
        assert_eq!(given, quoted(answers));
    }
}

#[test]
fn records_are_those_of_the_table() {
    let rows = rows(["First number", "Record", "Operands", "Gives", "Page"]);
    assert_eq!(rows.len(), 12);
    for (row, first) in rows.into_iter().zip(0..) {
        let [digits, word, operands, gives, page] = row;
        let page = quoted(page)[0];
        assert_eq!((number(digits), bracketed(page)), (first, first));
        let records = Page::read(&bytes(page)).expect("a page").records;
        let record = records.last().expect("a record");
        assert_eq!(name(record), word);
        if operands != "count" {
            assert_eq!(record.operands().to_string(), operands);
        }
        // The operands are vectors, the call's result is a scalar.
        let kind = match gives {
            "as its operand" | "scalar of two scalars, else vector" => "vector",
            "result kind" => "scalar",
            kind => kind,
        };
        let given = sandzguli::check(&bytes(page)).map(|kind| kind.to_string());
        assert_eq!(given, Ok(kind.into()), "{word}");
    }
}

#[test]
fn forms_are_those_in_brackets() {
    for [form, pages] in rows(["Form", "Page"]) {
        let forms: Vec<_> = form.split(", ").map(number).collect();
        let bracketed: Vec<_> = quoted(pages).into_iter().map(bracketed).collect();
        assert_eq!(bracketed, forms, "{pages}");
    }
}

#[test]
fn kinds_have_their_numbers() {
    let words = Kind::ALL.map(|kind| format!("{} {kind}", kind.number()));
    assert!(DOCUMENT.contains(&format!("Kinds are {}.", words.join(", "))));
    for kind in Kind::ALL {
        let page = Page::from([Record::call(Function::fixed("f", [], kind), 0)]);
        assert_eq!(sandzguli::check(&page.to_bytes()), Ok(kind));
    }
}

/// What a code is refused with between two numbers, over a vector, and over one with a number or a string before it;
/// 0: nothing.
fn refusals(code: Code) -> [u64; 4] {
    let (one, up) = (Record::whole(1), Record::selector("up", []));
    let over = |arguments| Record::aggregate(code, LabelModifier::None, arguments);
    let pages = [
        vec![one.clone(), one.clone(), Record::binary(code)],
        vec![up.clone(), over(1)],
        vec![one, up.clone(), over(2)],
        vec![Record::string("a"), up, over(2)],
    ];
    pages.map(|records| {
        let outcome = sandzguli::check(&Page::from(records).to_bytes());
        outcome.map_or_else(|refusal| refusal.number(), |_| 0)
    })
}

#[test]
fn patterns_have_their_words() {
    for [patterns, word] in rows(["Patterns", "Word"]) {
        for pattern in quoted(patterns) {
            let given = sandzguli::matches_empty(pattern).map_or(2, u64::from);
            assert_eq!(given, number(word), "{pattern}");
        }
    }
}

#[test]
fn pages_have_their_answers_of_the_added_checks() {
    type Check = fn(&[u8]) -> Result<Kind, Refusal>;
    let checks: [(&str, Check); 4] = [
        ("Table check", sandzguli::check_table),
        ("Older check", sandzguli::check_older),
        ("Newer check", sandzguli::check_newer),
        ("Operators check", sandzguli::check_operators),
    ];
    for (title, check) in checks {
        let rows = rows(["Page", title]);
        assert!(rows.len() > 10, "{title}");
        for [page, answer] in rows {
            let given = match check(&pages(page)[0]) {
                Ok(kind) => kind.to_string(),
                Err(refusal) => refused(refusal),
            };
            assert_eq!(given, quoted(answer)[0], "{page}");
        }
    }
}

#[test]
fn codes_have_their_words_and_act_so() {
    let mut found = Vec::new();
    for [class, list] in rows(["Codes of", "Codes and words"]) {
        let expected = match class {
            "arithmetic" => [0, 24, 15, 15],
            "comparison" => [18, 24, 15, 15],
            "set operators" => [20, 24, 15, 15],
            "aggregators" => [16, 0, 15, 15],
            "aggregators with a scalar parameter" => [16, 15, 0, 25],
            "aggregators with a string parameter" => [16, 15, 25, 0],
            "aggregators with any parameter" => [16, 15, 0, 0],
            _ => panic!("codes of {class}"),
        };
        for (digits, word) in codes(list) {
            let code = Code::of_number(number(digits)).expect("a code");
            assert_eq!(refusals(code), expected, "{word}");
            found.push((number(digits), word));
        }
    }
    found.sort();
    assert_eq!(found, Code::ALL.map(|code| (code.number(), code.word())));
}

#[test]
fn copies_are_those_of_the_table() {
    for [page, copy] in rows(["Page", "Copy"]) {
        let copied = sandzguli::copy(&bytes(quoted(page)[0]));
        assert_eq!(copied, Ok(bytes(quoted(copy)[0])));
    }
}

/// Both ways round.
#[test]
fn pages_are_one_query_or_two_as_the_table_says() {
    for [first, second, queries] in rows(["First", "Second", "Queries"]) {
        let is_one = match queries {
            "one" => true,
            "two" => false,
            _ => panic!("{queries} queries"),
        };
        let [first, second] = [first, second].map(|page| bytes(quoted(page)[0]));
        assert_eq!(sandzguli::same_query(&first, &second), Ok(is_one));
        assert_eq!(sandzguli::same_query(&second, &first), Ok(is_one));
    }
}
