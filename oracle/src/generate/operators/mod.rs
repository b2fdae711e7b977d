//! limitk and limit_ratio (document 02, No. 8): with parameters and operands of every kind (`forms`), with other counts,
//! beside other aggregators and other faults (`order`), nested and in queries of any shape (`queries`).

pub mod forms;
mod order;
mod queries;

use super::around::{length, refused};
use super::{Generator, Made, Scope};
use crate::answer::Outcome;
use crate::hex;
use crate::page::record::Kind;
use crate::random::Random;
use crate::refusal::LIMIT_PARAMETER;
use forms::Form;

/// limitk and limit_ratio.
const CODES: [u8; 2] = [29, 30];

/// The grouping of an aggregate: none, `by (x)`, `by ()`, `without (x)`, `without ()`.
const GROUPINGS: [&str; 5] = ["00", "01010178", "0100", "02010178", "0200"];

/// Pages made for outcomes of the check that follows the operators document.
pub fn fixed() -> impl Iterator<Item = Made> {
    let nested = Made::new(nested_limits(), Outcome::Accepted(Kind::Vector));
    let single = parameters().chain(operands());
    single.chain(order::fixed()).chain([nested])
}

/// A page of any of these sorts.
pub fn random(random: &mut Random) -> Made {
    let mut generator = Generator::new(random, 8, Scope::Patterns);
    match generator.random.below(10) {
        0..=2 => generator.limit_page(),
        3..=6 => generator.faulty_limit_page(),
        7 => generator.wrong_operand(),
        _ => generator.beside_limit(),
    }
}

/// A limit as the last record that a page may have or as the one behind it, or as many as there is room for.
pub fn last(random: &mut Random) -> Made {
    let forms: Vec<&Form> = forms::all().collect();
    let &&(kind, parameter) = random.pick(&forms);
    let code = random.pick(&CODES);
    let before = length(parameter) + 1;
    let at = |place: usize| {
        let marks = place - before;
        format!("{parameter} 0202757000 07*{marks}; 0a{code:02x}0002")
    };
    match (random.below(3), kind) {
        (0, _) => Made::new(nested_limits(), Outcome::Accepted(Kind::Vector)),
        (1, _) => refused(&at(256), 3, 256),
        (_, Kind::Scalar) => accepted(&at(255)),
        _ => refused(&at(255), LIMIT_PARAMETER, 255),
    }
}

/// Every aggregator on every pair of expressions: limitk and limit_ratio among others that take a parameter or none.
pub fn pairs() -> impl Iterator<Item = Vec<u8>> {
    let pairs =
        forms::all().flat_map(|parameter| forms::all().map(move |operand| (parameter, operand)));
    pairs.flat_map(|((_, parameter), (_, operand))| {
        (17..=30).map(move |code| hex::bytes(&format!("{parameter} {operand} 0a{code:02x}0002")))
    })
}

/// 127 nested limitk on `up`: a parameter for each.
pub fn nested_limits() -> Vec<u8> {
    hex::bytes("(000001)*127; 0202757000 (0a1d0002)*127;")
}

fn accepted(notation: &str) -> Made {
    Made::new(hex::bytes(notation), Outcome::Accepted(Kind::Vector))
}

/// What is judged: 25 of an operand that is no vector, then 42 of a parameter that is no scalar.
fn limited(code: u8, grouping: &str, parameter: &Form, operand: &Form) -> Made {
    let operands = format!("{} {}", parameter.1, operand.1);
    let notation = format!("{operands} 0a{code:02x}{grouping}02");
    match (parameter.0, operand.0) {
        (Kind::Scalar, Kind::Vector) => accepted(&notation),
        (_, Kind::Vector) => refused(&notation, LIMIT_PARAMETER, length(&operands)),
        _ => refused(&notation, 25, length(&operands)),
    }
}

/// Every parameter on `up`; which grouping there is changes from one to the next.
fn parameters() -> impl Iterator<Item = Made> {
    CODES.into_iter().flat_map(|code| {
        let numbered = forms::all().enumerate();
        let each = numbered.map(move |(place, form)| {
            let grouping = GROUPINGS[place % GROUPINGS.len()];
            limited(code, grouping, form, &(Kind::Vector, "0202757000"))
        });
        let grouped = forms::shortest().flat_map(move |form| {
            GROUPINGS.map(|grouping| limited(code, grouping, form, &(Kind::Vector, "0202757000")))
        });
        each.chain(grouped)
    })
}

/// Every operand behind a parameter of each kind.
fn operands() -> impl Iterator<Item = Made> {
    let pairs = forms::all().flat_map(|operand| forms::shortest().map(move |each| (each, operand)));
    let numbered = pairs.enumerate();
    numbered.map(|(place, (parameter, operand))| {
        let code = CODES[place / 4 % CODES.len()];
        limited(code, GROUPINGS[0], parameter, operand)
    })
}
