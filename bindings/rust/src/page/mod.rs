//! Pages: records as values, written to bytes and read back.
//!
//! A record takes its operands from a stack and puts one expression back; the deepest operand is the left one or the
//! first argument. A page is one expression in the end.
//!
//! ```
//! use sandzguli::page::{Code, LabelModifier, Literal, Page, Record};
//!
//! // topk by (job) (3, up offset -1m)
//! let page = Page::from([
//!     Record::Number(Literal::Whole(3)),
//!     Record::selector("up", []),
//!     Record::offset_minus(60_000),
//!     Record::aggregate(Code::Topk, LabelModifier::by(["job"]), 2),
//! ]);
//! let bytes = page.to_bytes();
//! assert_eq!(sandzguli::canonical(&bytes).unwrap(), "topk by (job) (3, up offset -1m)");
//! assert_eq!(Page::read(&bytes), Ok(page));
//! ```

mod code;
mod field;
mod function;
mod literal;
mod matcher;
mod modifier;
mod read;
mod record;
mod time;
mod write;

pub use code::Code;
pub use function::{Function, Signature, UnknownFunction, Variadic};
pub use literal::Literal;
pub use matcher::{MatchOp, Matcher};
pub use modifier::{BinModifier, Cardinality, LabelModifier};
pub(crate) use read::signature as read_signature;
pub use record::Record;
pub use time::{AtModifier, Offset};

use crate::Refusal;

/// The records of a page, in postfix order.
#[derive(Debug, Clone, PartialEq, Eq, Default)]
pub struct Page {
    /// The records, the last one being the query's outermost part.
    pub records: Vec<Record>,
}

impl Page {
    /// A page without records.
    pub fn new() -> Self {
        Self::default()
    }

    /// The page with one more record.
    ///
    /// ```
    /// use sandzguli::page::{Page, Record};
    ///
    /// let page = Page::new().then(Record::selector("up", [])).then(Record::Paren);
    /// assert_eq!(sandzguli::canonical(&page.to_bytes()).unwrap(), "(up)");
    /// ```
    pub fn then(mut self, record: Record) -> Self {
        self.records.push(record);
        self
    }

    /// The bytes of the page, every number in its shortest form. What no page may hold, such as a text of 256 bytes, a
    /// metric name with an accent or a wrong flag, is written too: [`check`](crate::check) refuses it. So is a function
    /// that the table lacks: [`check_table`](crate::check_table) refuses it. Texts of strings, labels and matchers are
    /// refused for their length only, since a [`String`] is well-formed UTF-8.
    pub fn to_bytes(&self) -> Vec<u8> {
        let mut bytes = Vec::new();
        for record in &self.records {
            write::record(&mut bytes, record);
        }
        bytes
    }

    /// The records of a page, read as the library reads them. Only what cannot be read is refused, with 1, 3 or 4:
    /// whether the records are a query is for [`check`](crate::check) to say.
    ///
    /// ```
    /// use sandzguli::page::{Page, Record};
    /// use sandzguli::Rule;
    ///
    /// assert_eq!(Page::read(&[8, 7]).unwrap().records, [Record::Paren, Record::Unary]);
    /// assert_eq!(Page::read(&[8, 99]).unwrap_err().rule, Rule::BadField);
    /// // A string of one byte, which begins a character of two.
    /// assert_eq!(Page::read(b"\x01\x01\xc3").unwrap_err().rule, Rule::BadText);
    /// ```
    pub fn read(bytes: &[u8]) -> Result<Self, Refusal> {
        Ok(Self {
            records: read::records(bytes)?,
        })
    }
}

impl<const COUNT: usize> From<[Record; COUNT]> for Page {
    fn from(records: [Record; COUNT]) -> Self {
        Self {
            records: records.into(),
        }
    }
}

impl From<Vec<Record>> for Page {
    fn from(records: Vec<Record>) -> Self {
        Self { records }
    }
}

/// ```
/// use sandzguli::page::{Page, Record};
///
/// let parens = std::iter::repeat(Record::Paren).take(2);
/// let page: Page = std::iter::once(Record::selector("up", [])).chain(parens).collect();
/// assert_eq!(sandzguli::canonical(&page.to_bytes()).unwrap(), "((up))");
/// ```
impl FromIterator<Record> for Page {
    fn from_iter<T: IntoIterator<Item = Record>>(records: T) -> Self {
        Self {
            records: records.into_iter().collect(),
        }
    }
}

/// ```
/// use sandzguli::page::{Code, Page, Record};
///
/// let mut page = Page::from([Record::whole(1)]);
/// page.extend([Record::whole(2), Record::binary(Code::Add)]);
/// assert_eq!(sandzguli::canonical(&page.to_bytes()).unwrap(), "1 + 2");
/// ```
impl Extend<Record> for Page {
    fn extend<T: IntoIterator<Item = Record>>(&mut self, records: T) {
        self.records.extend(records);
    }
}

/// [`Page::read`].
///
/// ```
/// use sandzguli::page::{Page, Record};
///
/// let page = Page::try_from([8, 7].as_slice()).unwrap();
/// assert_eq!(page.records, [Record::Paren, Record::Unary]);
/// ```
impl TryFrom<&[u8]> for Page {
    type Error = Refusal;

    fn try_from(bytes: &[u8]) -> Result<Self, Refusal> {
        Self::read(bytes)
    }
}

/// Owned texts of any list of texts.
fn texts<T: Into<String>>(list: impl IntoIterator<Item = T>) -> Vec<String> {
    list.into_iter().map(Into::into).collect()
}
