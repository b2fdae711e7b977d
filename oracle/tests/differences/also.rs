//! What rows say of further queries ("also ..", "agree") is true of the Rust.

use crate::answers::is_told;
use crate::document::rows;
use crate::search::worked;
use oracle::answer::Domain;
use oracle::hex;

/// The row, a page of the query that it names besides its own, and the answer.
#[rustfmt::skip]
const ALSO: &[(&str, &str, &str)] = &[
    ("6", "0100 02016100 0a1e0002", "prints `limit_ratio(\"\", a)`"),
    ("7a", "0002 0b036578700100000001", "prints `exp(NaN)`"),
    ("7a", "0002 0b046c6f67320100000001", "prints `log2(NaN)`"),
    ("7a", "0002 0b056c6f6731300100000001", "prints `log10(NaN)`"),
    ("7a", "0003 0b026c6e0100000001", "prints `ln(Inf)`"),
    ("7a", "0004 0b036578700100000001", "prints `exp(-Inf)`"),
    ("7b", "000000 0b046c6f67320100000001", "prints `log2(0)`"),
    ("7b", "000000 0b056c6f6731300100000001", "prints `log10(0)`"),
    ("7b", "000101 0b026c6e0100000001", "prints `ln(-1)`"),
    ("7b", "00060501 0b026c6e0100000001", "prints `ln(-0.5)`"),
    ("A2", "0202757000 0502 #5000; 03 #300000;", "refused 8 at 2"),
    ("A9", "0202757000 060100 03 #300000;", "refused 7 at 2"),
    ("A10", "0202757000 03 #9208512000000;", "prints `up[292y]`"),
    ("A14", "0202757000 0a1b01 01 036e616e 01", "prints `sum by (nan) (up)`"),
    ("A14", "0202757000 0a1b01 01 07776974686f7574 01", "prints `sum by (without) (up)`"),
    ("A14", "0202757000 0a1b02 01 03696e66 01", "prints `sum without (inf) (up)`"),
    ("A14", "(0202757000)*2; 09010100 01 01 03696e66 00 0000", "prints `up + on (inf) up`"),
    ("A14", "(0202757000)*2; 09010100 02 01 03696e66 00 0000", "prints `up + ignoring (inf) up`"),
    ("A14", "(0202757000)*2; 09010100 0100 01 01 03696e66 0000", "prints `up + on () group_left (inf) up`"),
    ("A15", "0204 626f6f6c 00", "prints `bool`"),
    ("A15", "0208 69676e6f72696e67 00", "prints `ignoring`"),
    ("A15", "020a 67726f75705f6c656674 00", "prints `group_left`"),
    ("A15", "020b 67726f75705f7269676874 00", "prints `group_right`"),
    ("A15", "0205 6174616e32 00", "prints `atan2`"),
    ("A16", "0203 6e616e 00", "prints `nan`"),
    ("A16", "0203 496e46 00", "prints `InF`"),
    ("A20", "020001 020161 07 617b313030317d 00", "prints `{a=~\"a{1001}\"}`"),
    ("A20", "020002 020161 03 612a2a 01 0001620163", "prints `{a=~\"a**\",b=\"c\"}`"),
    ("A20", "0202757001 020161 06 283f2d752961 00", "prints `up{a=~\"(?-u)a\"}`"),
    ("A20", "0202757001 020161 06 5b612d2d625d 00", "prints `up{a=~\"[a--b]\"}`"),
    ("A20", "0202757001 020161 0d 5c707b4c6f776572636173657d 00", r#"prints `up{a=~"\\p{Lowercase}"}`"#),
    ("A20", "0202757001 020161 0d 28617b3130307d297b3130307d 00", "prints `up{a=~\"(a{100}){100}\"}`"),
    ("A20", "0202757001 020161 09 617b302c313030307d 01", "prints `up{a=~\"a{0,1000}\"}`"),
    ("A21", "0202757001 020161 02 5c5f 00", r#"prints `up{a=~"\\_"}`"#),
    ("A21", "0202757001 020161 02 5c30 00", r#"prints `up{a=~"\\0"}`"#),
    ("A21", "0202757001 020161 04 5c313431 00", r#"prints `up{a=~"\\141"}`"#),
    ("A21", "0202757001 020161 02 5c20 00", r#"prints `up{a=~"\\ "}`"#),
    ("A21", "0202757001 020161 10 283f503c6e3e6129283f503c6e3e6229 00", "prints `up{a=~\"(?P<n>a)(?P<n>b)\"}`"),
    ("A21", "0202757001 020161 07 283f3c6e3e6129 00", "prints `up{a=~\"(?<n>a)\"}`"),
    ("B3", "000001 0a1b0001 000002 0a1c0002", "refused 25 at 1"),
    ("B6", "(0202757000)*2; 090701 00 0100 0100 0000", "refused 21 at 2"),
    ("C1", "0004", "prints `-Inf`"),
    ("C1", "0002", "prints `NaN`"),
    ("C1", "000100", "prints `-0`"),
    ("C2", "0000 #999999;", "prints `999999`"),
    ("C4", "00050104", "prints `0.0001`"),
    ("C4", "00055f02", "prints `0.95`"),
    ("C6", "0102 0b7f", "prints `\"\u{b}\u{7f}\"`"),
    ("C7", "0102 c3a9", "prints `\"é\"`"),
];

#[test]
fn further_queries_have_the_answers_told() {
    let numbers: Vec<_> = rows().iter().map(|row| row.number).collect();
    for (number, notation, told) in ALSO {
        let page = hex::bytes(notation);
        assert!(
            numbers.contains(number) && is_told(&page, told),
            "{number}: {told}"
        );
        // The patterns of A21 are those that the Rust's regex does not take.
        let domain = match *number {
            "A21" => Domain::PatternNotTaken,
            _ => Domain::Inside,
        };
        assert_eq!(worked(&page).domain, domain, "{told}");
    }
}

/// What the document says of queries that have no page: the number of `1h`, a metric name with a space, and 1e-16.
#[test]
fn what_has_no_page_is_told() {
    assert!(is_told(&hex::bytes("0000 #3600;"), "prints `3600`"));
    assert!(is_told(&hex::bytes("0203 612062 00"), "refused 4 at 0"));
    assert!(is_told(&hex::bytes("0005 0110"), "refused 1 at 0"));
}
