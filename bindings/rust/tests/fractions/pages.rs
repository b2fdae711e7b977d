//! Pages with fractions: their records, and the bytes that stand for them.

use sandzguli::page::{BinModifier, Code, Function, LabelModifier, Literal, Page, Record};
use sandzguli::Kind;

/// The highest digits of a fraction.
const HIGHEST: u64 = 999_999_999_999_999;

/// `up + up`, as far as its fills; a fill of 0.5.
const SUM: &str = "02027570000202757000090101000000";
const HALF_FILL: &str = "01050501";

/// A page, and its bytes in hexadecimal.
type Row = (Page, String);

pub fn fraction(minus: bool, digits: u64, places: u64) -> Literal {
    Literal::fraction(minus, digits, places).expect("a fraction")
}

fn number(minus: bool, digits: u64, places: u64) -> Record {
    Record::Number(fraction(minus, digits, places))
}

fn up() -> Record {
    Record::selector("up", [])
}

/// An operator with such fills between two vectors.
pub fn filled(code: Code, left_fill: Option<Literal>, right_fill: Option<Literal>) -> Page {
    let modifier = BinModifier {
        left_fill,
        right_fill,
        ..BinModifier::default()
    };
    Page::from([up(), up(), Record::binary_with(code, modifier)])
}

fn row(records: &[&Record], bytes: &str) -> Row {
    let records = records.iter().copied().cloned();
    (records.collect(), bytes.into())
}

/// Numbers, alone and with unary records and a paren.
fn numbers() -> Vec<Row> {
    let [share, minus_share] = [false, true].map(|minus| number(minus, 95, 2));
    let (unary, paren) = (&Record::Unary, &Record::Paren);
    vec![
        row(&[&share], "00055f02"),
        row(&[&number(false, 1, 6)], "00050106"),
        row(&[&number(false, 25, 1)], "00051901"),
        row(&[&share, unary], "00055f0207"),
        row(&[&minus_share, unary], "00065f0207"),
        row(&[&share, unary, unary], "00055f020707"),
        row(&[&share, paren, unary], "00055f020807"),
        row(&[&number(false, 1, 15)], "0005010f"),
        row(&[&number(true, 1, 15)], "0006010f"),
        row(&[&number(false, HIGHEST, 1)], "0005ffff99a6eaafe30101"),
        row(&[&number(false, HIGHEST, 15)], "0005ffff99a6eaafe3010f"),
    ]
}

/// Fractions as arguments and between operators.
fn operands() -> Vec<Row> {
    let [half, minus_half] = [false, true].map(|minus| number(minus, 5, 1));
    let (one, share, up) = (Record::whole(1), number(false, 95, 2), up());
    let call = |name: &str| Record::call(Function::fixed(name, [Kind::Vector], Kind::Vector), 1);
    let (ln, exp) = (call("ln"), call("exp"));
    let quantile = Record::aggregate(Code::Quantile, LabelModifier::None, 2);
    let [less, and, minus] = [Code::Lss, Code::Land, Code::Sub].map(Record::binary);
    let unary = &Record::Unary;
    vec![
        row(&[&share, &up, &quantile], "00055f0202027570000a180002"),
        row(&[&half, &ln], "000505010b026c6e0100000001"),
        row(&[&minus_half, &ln], "000605010b026c6e0100000001"),
        row(&[&half, unary, &ln], "00050501070b026c6e0100000001"),
        row(&[&minus_half, unary, &ln], "00060501070b026c6e0100000001"),
        row(&[&minus_half, &exp], "000605010b036578700100000001"),
        row(&[&half, &half, &less], "0005050100050501090800"),
        row(&[&half, &up, &and], "000505010202757000090600"),
        row(&[&one, &minus_half, &minus], "00000100060501090f00"),
    ]
}

/// Fractions as fills, beside each other and beside other numbers.
fn fills() -> Vec<Row> {
    let [half, minus_half] = [false, true].map(|minus| Some(fraction(minus, 5, 1)));
    let right_fills = [
        (None, "00"),
        (half, "01050501"),
        (minus_half, "01060501"),
        (Some(fraction(false, 5, 2)), "01050502"),
        (Some(Literal::Whole(5)), "010005"),
        (Some(Literal::Whole(0)), "010000"),
        (Some(Literal::Nan), "0102"),
    ];
    let mut rows = Vec::from(right_fills.map(|(right_fill, bytes)| {
        let page = filled(Code::Add, half, right_fill);
        (page, format!("{SUM}{HALF_FILL}{bytes}"))
    }));
    let highest = Some(fraction(false, HIGHEST, 1));
    let above = Some(Literal::Whole(100_000_000_000_000));
    let bytes = format!("{SUM}0105ffff99a6eaafe3010101008080e983b1de16");
    rows.push((filled(Code::Add, highest, above), bytes));
    let or = "020275700002027570000907010000000105050101060501";
    rows.push((filled(Code::Lor, half, minus_half), or.into()));
    rows
}

/// Digits or places that no fraction has, though a value of this binding may.
fn outside() -> Vec<Row> {
    let plus = |digits, places| Literal::Fraction {
        minus: false,
        digits,
        places,
    };
    let number = |digits, places| Record::Number(plus(digits, places));
    let no_digits = filled(Code::Add, Some(plus(0, 1)), None);
    let no_operands = no_digits.records.last().expect("the sum");
    let many_places = filled(Code::Add, Some(plus(5, 1)), Some(plus(5, 16)));
    vec![
        row(&[&number(HIGHEST + 1, 1)], "000580809aa6eaafe30101"),
        row(&[&number(0, 1)], "00050001"),
        row(&[&number(10, 1)], "00050a01"),
        row(&[&number(950, 3)], "0005b60703"),
        row(&[&number(95, 0)], "00055f00"),
        row(&[&number(95, 16)], "00055f10"),
        row(&[no_operands], "0901010000000105000100"),
        (many_places, format!("{SUM}{HALF_FILL}01050510")),
    ]
}

fn bytes(digits: &str) -> Vec<u8> {
    let byte = |place| u8::from_str_radix(&digits[place..place + 2], 16).expect("hexadecimal");
    (0..digits.len()).step_by(2).map(byte).collect()
}

fn pages(rows: Vec<Row>) -> impl Iterator<Item = (Page, Vec<u8>)> {
    let pages = rows.into_iter();
    pages.map(|(page, digits)| (page, bytes(&digits)))
}

/// Pages that can be read. Some are refused as queries.
pub fn within() -> impl Iterator<Item = (Page, Vec<u8>)> {
    pages([numbers(), operands(), fills()].concat())
}

/// Pages that cannot be read, because of a fraction in the last record.
pub fn beyond() -> impl Iterator<Item = (Page, Vec<u8>)> {
    pages(outside())
}
