//! Pages that differ in one field or more, and in which a copy changes nothing: no unary on a number, no offset before
//! an @, every set operator many-to-many.

use sandzguli::page::{AtModifier, BinModifier, Cardinality, Code, Function, LabelModifier};
use sandzguli::page::{Literal, MatchOp, Matcher, Offset, Page, Record, Variadic};
use sandzguli::Kind;

const NO_LABEL: [&str; 0] = [];

fn up() -> Record {
    Record::selector("up", [])
}

/// NaN is one; 0 and minus zero are two; fractions differ by sign, digits and places.
fn literals() -> Vec<Literal> {
    let fraction = |minus, digits, places| Literal::fraction(minus, digits, places).expect("one");
    vec![
        Literal::Whole(0),
        Literal::Negative(0),
        Literal::Nan,
        Literal::Inf,
        Literal::NegInf,
        Literal::Whole(5),
        Literal::Negative(5),
        fraction(false, 5, 1),
        fraction(true, 5, 1),
        fraction(false, 5, 2),
        fraction(false, 25, 2),
    ]
}

fn numbers() -> Vec<Page> {
    let number = |literal| Page::from([Record::Number(literal)]);
    let mut pages: Vec<_> = literals().into_iter().map(number).collect();
    pages.extend(["", "5", "é", "e\u{301}"].map(|text| Page::from([Record::string(text)])));
    pages.push(Page::from([Record::whole(5), Record::Paren]));
    pages.push(Page::from([Record::whole(5), Record::Paren, Record::Unary]));
    pages
}

/// Matchers in either order, one of them twice; operations, and flags of a pattern that is not covered.
fn selectors() -> Vec<Page> {
    let [a, b] = ["a", "b"].map(|name| Matcher::equal(name, "1"));
    let mut lists = vec![
        vec![a.clone()],
        vec![a.clone(), a.clone()],
        vec![a.clone(), b.clone()],
        vec![b, a],
        vec![Matcher::not_equal("a", "1")],
        vec![Matcher::equal("a", "")],
    ];
    for matches_empty in [false, true] {
        for op in [
            MatchOp::Re { matches_empty },
            MatchOp::NotRe { matches_empty },
        ] {
            lists.push(vec![Matcher::new(op, "a", "[x]")]);
        }
    }
    let mut pages = vec![
        Page::from([Record::selector("", [Matcher::equal("__name__", "up")])]),
        Page::from([Record::selector("UP", [])]),
    ];
    pages.extend(
        lists
            .into_iter()
            .map(|list| Page::from([Record::selector("up", list)])),
    );
    pages
}

/// What stands on a selector, a range and a subquery, and steps of subqueries.
fn times() -> Vec<Page> {
    let mut times = vec![vec![]];
    for at in [
        AtModifier::Start,
        AtModifier::End,
        AtModifier::After(0),
        AtModifier::Before(1),
    ] {
        times.push(vec![Record::At(at)]);
    }
    for offset in [0, 1]
        .into_iter()
        .flat_map(|time| [Offset::Plus(time), Offset::Minus(time)])
    {
        times.push(vec![Record::Offset(offset)]);
        times.push(vec![Record::At(AtModifier::End), Record::Offset(offset)]);
    }
    let subquery = |step| vec![up(), Record::Subquery { range: 1, step }];
    let timed = [
        vec![up()],
        vec![up(), Record::Range(1)],
        subquery(None),
        subquery(Some(0)),
        subquery(Some(1)),
    ];
    let pages = timed.iter().flat_map(|operand| {
        let on_operand = |times: &Vec<Record>| [operand.clone(), times.clone()].concat();
        times.iter().map(on_operand)
    });
    pages.map(Page::from).collect()
}

/// Labels in lists: none, one, two in either order, one twice.
fn label_lists() -> [Vec<&'static str>; 5] {
    [
        vec![],
        vec!["a"],
        vec!["a", "b"],
        vec!["b", "a"],
        vec!["a", "a"],
    ]
}

/// Groupings, with none and empty ones.
fn aggregates() -> Vec<Page> {
    let mut groupings = vec![LabelModifier::None];
    for labels in label_lists() {
        groupings.push(LabelModifier::by(labels.clone()));
        groupings.push(LabelModifier::without(labels));
    }
    let sum = |grouping| Page::from([up(), Record::aggregate(Code::Sum, grouping, 1)]);
    groupings.into_iter().map(sum).collect()
}

/// Modifiers, with an empty one: matching, grouping and fills.
fn modifiers() -> Vec<BinModifier> {
    let empty = BinModifier::default;
    let mut modifiers = vec![empty()];
    for labels in label_lists() {
        for matching in [
            LabelModifier::on(labels.clone()),
            LabelModifier::ignoring(labels.clone()),
        ] {
            modifiers.push(BinModifier {
                matching,
                ..empty()
            });
        }
        for cardinality in [
            Cardinality::group_left(labels.clone()),
            Cardinality::group_right(labels),
        ] {
            modifiers.push(BinModifier {
                cardinality,
                ..empty()
            });
        }
    }
    for fill in literals() {
        let fill = Some(fill);
        modifiers.push(BinModifier {
            left_fill: fill,
            ..empty()
        });
        modifiers.push(BinModifier {
            right_fill: fill,
            ..empty()
        });
        modifiers.push(BinModifier {
            left_fill: fill,
            right_fill: fill,
            ..empty()
        });
    }
    modifiers
}

/// Operators without and with modifiers; of set operators the modifier is there, and many-to-many.
fn binaries() -> Vec<Page> {
    let mut records = vec![Record::binary(Code::Add), Record::binary(Code::Eql)];
    for modifier in modifiers() {
        records.push(Record::binary_with(Code::Add, modifier));
    }
    for returns_bool in [false, true] {
        let modifier = BinModifier {
            returns_bool,
            ..BinModifier::default()
        };
        records.push(Record::binary_with(Code::Eql, modifier));
    }
    let matchings = [
        LabelModifier::None,
        LabelModifier::on(NO_LABEL),
        LabelModifier::ignoring(NO_LABEL),
    ];
    for code in [Code::Land, Code::Lor, Code::Lunless] {
        for matching in matchings.clone() {
            let cardinality = Cardinality::ManyToMany;
            let modifier = BinModifier {
                matching,
                cardinality,
                ..BinModifier::default()
            };
            records.push(Record::binary_with(code, modifier));
        }
    }
    records
        .into_iter()
        .map(|record| Page::from([up(), up(), record]))
        .collect()
}

/// Calls of `f(up)` by signatures that take one vector: names, kinds, extra and result.
fn calls() -> Vec<Page> {
    let fixed = |name, kinds: &[Kind], result| Function::fixed(name, kinds.iter().copied(), result);
    let one = [Kind::Vector];
    let mut functions = vec![fixed("g", &one, Kind::Vector)];
    functions.extend(Kind::ALL.map(|result| fixed("f", &one, result)));
    for kinds in [
        one.as_slice(),
        &[Kind::Vector, Kind::Scalar],
        &[Kind::Vector, Kind::Vector],
    ] {
        for variadic in [Variadic::Unlimited, Variadic::UpTo(1), Variadic::UpTo(2)] {
            functions.push(fixed("f", kinds, Kind::Vector).variadic(variadic));
        }
    }
    let call = |function| Page::from([up(), Record::call(function, 1)]);
    functions.into_iter().map(call).collect()
}

/// All of these pages.
pub fn pages() -> Vec<Page> {
    [
        numbers(),
        selectors(),
        times(),
        aggregates(),
        binaries(),
        calls(),
    ]
    .concat()
}
