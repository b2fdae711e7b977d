//! Pages in hexadecimal. Long ones repeat a byte or a group, `01 ac02 61*300;` or `(02 02 75 70 00)*3;`; numbers of the
//! page may be written in decimal, `03 #1500;`.

use crate::page::write;

/// The bytes that the notation stands for. Panics on a text that is no notation: the rows are ours.
pub fn bytes(notation: &str) -> Vec<u8> {
    let mut groups: Vec<Vec<u8>> = vec![Vec::new()];
    let mut last = 0;
    let mut rest = notation.trim_start();
    while let Some(first) = rest.chars().next() {
        let page = groups.last_mut().expect("the page itself is a group");
        match first {
            '(' => {
                groups.push(Vec::new());
                rest = &rest[1..];
            }
            ')' => {
                let group = groups.pop().expect("a bracket is open");
                last = group.len();
                groups.last_mut().expect("a bracket was open").extend(group);
                rest = &rest[1..];
            }
            '*' => {
                let (times, after) = decimal(&rest[1..]);
                let unit = page.split_off(page.len() - last);
                page.extend(unit.repeat(times as usize));
                rest = after;
            }
            '#' => {
                let (value, after) = decimal(&rest[1..]);
                write::number(page, value);
                rest = after;
            }
            _ => {
                page.push(u8::from_str_radix(&rest[..2], 16).expect("hexadecimal digits"));
                last = 1;
                rest = &rest[2..];
            }
        }
        rest = rest.trim_start();
    }
    groups.pop().expect("the page itself is a group")
}

/// A decimal number up to a semicolon, and what follows.
fn decimal(notation: &str) -> (u64, &str) {
    let (digits, after) = notation.split_once(';').expect("a semicolon ends a number");
    (digits.parse().expect("decimal digits"), after)
}

pub fn text(bytes: &[u8]) -> String {
    bytes.iter().map(|byte| format!("{byte:02x}")).collect()
}
