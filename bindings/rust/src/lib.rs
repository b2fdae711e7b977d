//! PromQL queries as byte pages, checked and printed.
//!
//! A page holds a query as records in postfix order: operands first, then what takes them. [`page::Page`] makes one
//! from records and reads one back; the functions below take any byte string.
//!
//! ```
//! use sandzguli::page::{Code, LabelModifier, Matcher, Page, Record, UnknownFunction};
//! use sandzguli::Kind;
//!
//! # fn main() -> Result<(), UnknownFunction> {
//! let page = Page::from([
//!     Record::selector("http_requests_total", [Matcher::equal("job", "api")]),
//!     Record::Range(300_000),
//!     Record::call_known("rate", 1)?,
//!     Record::aggregate(Code::Sum, LabelModifier::by(["instance"]), 1),
//! ])
//! .to_bytes();
//!
//! assert_eq!(sandzguli::check(&page), Ok(Kind::Vector));
//! assert_eq!(
//!     sandzguli::canonical(&page).unwrap(),
//!     r#"sum by (instance) (rate(http_requests_total{job="api"}[5m]))"#
//! );
//! # Ok(())
//! # }
//! ```
//!
//! A page that is no query is refused with a [`Rule`] and the record that breaks it:
//!
//! ```
//! use sandzguli::page::{Page, Record};
//! use sandzguli::Rule;
//!
//! let page = Page::from([Record::string("a"), Record::Unary]).to_bytes();
//! let refusal = sandzguli::check(&page).unwrap_err();
//! assert_eq!((refusal.rule, refusal.record), (Rule::UnaryOnLiteral, 1));
//! assert_eq!(refusal.to_string(), "refused 6 at 1: unary on a string literal or range selector");
//! ```
//!
//! Strings, labels and matchers may hold any text of at most 255 bytes; metric and function names are ASCII. What is
//! printed is well-formed UTF-8, which is proved: [`String`] and [`str`] are made of it without a test.
//!
//! ```
//! use sandzguli::page::{Matcher, Page, Record};
//! use sandzguli::Rule;
//!
//! let page = Page::from([Record::selector("up", [Matcher::equal("ville", "Zürich")])]).to_bytes();
//! assert_eq!(sandzguli::canonical(&page).unwrap(), r#"up{ville="Zürich"}"#);
//!
//! let page = Page::from([Record::selector("Zürich", [])]).to_bytes();
//! assert_eq!(sandzguli::check(&page).unwrap_err().rule, Rule::BadText);
//! ```
//!
//! A number or a fill may be a fraction of at most 15 digits and 15 places, which is held exactly and printed as a
//! decimal: [`page::Literal::fraction`] makes 0.95 of the digits 95 and 2 places.
//!
//! The flag of a pattern tells whether it matches empty text. [`matches_empty`] knows it of covered patterns, and
//! [`page::Matcher::re`] sets it by itself; of any other pattern the caller gives it, and it is believed.
//!
//! ```
//! use sandzguli::page::{MatchOp, Matcher, Page, Record};
//! use sandzguli::Rule;
//!
//! assert_eq!(sandzguli::matches_empty("x*"), Some(true));
//! let wrong = Matcher::new(MatchOp::Re { matches_empty: false }, "job", "x*");
//! let page = Page::from([Record::selector("up", [wrong])]).to_bytes();
//! assert_eq!(sandzguli::check(&page).unwrap_err().rule, Rule::WrongFlag);
//! ```
//!
//! A call carries its function's signature: the kinds of its arguments, how many more there may be, and what it gives.
//! [`check`] and the texts believe it. [`check_table`] holds it to the function table, in which [`signature`] looks a
//! name up; with [`page::Record::call_known`] nobody writes a signature by hand.
//!
//! ```
//! use sandzguli::page::{Function, Page, Record};
//! use sandzguli::{Kind, Rule};
//!
//! assert_eq!(sandzguli::signature("rate").unwrap().kinds, [Kind::Matrix]);
//! let by_hand = Record::call(Function::fixed("rate", [Kind::Vector], Kind::Vector), 1);
//! let page = Page::from([Record::selector("up", []), by_hand]).to_bytes();
//! assert_eq!(sandzguli::check(&page), Ok(Kind::Vector));
//! assert_eq!(sandzguli::check_table(&page).unwrap_err().rule, Rule::UnlikeSignature);
//! ```
//!
//! Some servers run Prometheus 2.55, others 3.0, and their functions differ. [`generations`] tells which of the two
//! accept a query, [`check_older`] and [`check_newer`] why one does not:
//!
//! ```
//! use sandzguli::page::{Page, Record, UnknownFunction};
//! use sandzguli::{Generations, Rule};
//!
//! # fn main() -> Result<(), UnknownFunction> {
//! // In Prometheus 2.55 it is called holt_winters.
//! let page = Page::from([
//!     Record::selector("up", []),
//!     Record::Range(300_000),
//!     Record::whole(1),
//!     Record::whole(1),
//!     Record::call_known("double_exponential_smoothing", 3)?,
//! ])
//! .to_bytes();
//! let accepting = sandzguli::generations(&page);
//! assert_eq!(accepting, Generations::Newer);
//! assert_eq!(accepting.to_string(), "Prometheus 3.0 alone");
//! assert_eq!(sandzguli::check_older(&page).unwrap_err().rule, Rule::UnknownFunction);
//! # Ok(())
//! # }
//! ```
//!
//! [`check_operators`] holds `limitk` and `limit_ratio` to the operators document of Prometheus: their parameter is a
//! scalar. [`check`] and the texts take one of any kind.
//!
//! Two pages may be one query: [`same_query`] tells whether they are, by what [`copy`] writes of each. So a sheet of
//! queries knows which it has already.
//!
//! The calls are those of the proved library `libsandzguli.a`, which keep nothing between them and allocate nothing:
//! any thread may call at any time. The functions that answer with an owned value allocate it. All calls on a page
//! recurse over the bytes of its patterns, and the texts over its records; none uses more than [`STACK_BYTES`] of
//! stack.

mod call;
mod generations;
mod kind;
mod name;
pub mod page;
mod pattern;
mod refusal;
mod same_query;
mod signature;
mod size;
mod text;

pub use call::{check, check_operators, check_table, copy, copy_into, joint_label, Written};
pub use generations::{check_newer, check_older, generations, Generations};
pub use kind::Kind;
pub use name::{kind_name, kind_name_into, refusal_name, refusal_name_into, version};
pub use pattern::matches_empty;
pub use refusal::{Refusal, Rule};
pub use same_query::{same_query, RefusedPage};
pub use signature::{signature, signature_into};
pub use size::{
    CANONICAL_BYTES, COPY_BYTES, NAME_BYTES, PAGE_BYTES, RECORDS, SIGNATURE_BYTES, STACK_BYTES,
};
pub use text::{canonical, canonical_into, canonical_str, split, split_into, split_str};
