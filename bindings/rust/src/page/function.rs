//! Functions, with the signatures that their calls carry.

use crate::{signature, Kind};
use std::error::Error;
use std::fmt;

/// How many arguments a function takes beside those that it declares.
#[derive(Debug, Clone, Copy, PartialEq, Eq, Hash)]
pub enum Variadic {
    /// As many as it declares.
    Fixed,
    /// The last one may be left out, or repeated without limit.
    Unlimited,
    /// At least all but one of those it declares, and at most so many more than that: from 1 to 16.
    UpTo(u64),
}

/// What a function takes and what it gives. [`signature`](crate::signature) has it by the function's name.
#[derive(Debug, Clone, PartialEq, Eq, Hash)]
pub struct Signature {
    /// The kinds of its arguments, at most 16; past these the last one repeats.
    pub kinds: Vec<Kind>,
    /// How many arguments beside these.
    pub variadic: Variadic,
    /// The kind of its result.
    pub result: Kind,
}

/// A function as a page declares it. [`check`](crate::check) goes by this, [`check_table`](crate::check_table) holds it
/// to the function table first, [`check_older`](crate::check_older) and [`check_newer`](crate::check_newer) to the
/// functions of a server.
#[derive(Debug, Clone, PartialEq, Eq, Hash)]
pub struct Function {
    /// At most 64 ASCII letters, digits and `_`, not a digit first.
    pub name: String,
    /// What its calls carry.
    pub signature: Signature,
}

impl Function {
    /// Any function, also one that the table lacks.
    pub fn new(name: impl Into<String>, signature: Signature) -> Self {
        Self {
            name: name.into(),
            signature,
        }
    }

    /// The function that the table has under a name.
    ///
    /// ```
    /// use sandzguli::page::{Function, Variadic};
    /// use sandzguli::Kind;
    ///
    /// let month = Function::fixed("month", [Kind::Vector], Kind::Vector);
    /// assert_eq!(Function::known("month"), Ok(month.variadic(Variadic::UpTo(1))));
    ///
    /// let unknown = Function::known("mouth").unwrap_err();
    /// assert_eq!(unknown.to_string(), "the function table does not have 'mouth'");
    /// ```
    pub fn known(name: impl Into<String>) -> Result<Self, UnknownFunction> {
        let name = name.into();
        match signature(&name) {
            Some(signature) => Ok(Self { name, signature }),
            None => Err(UnknownFunction { name }),
        }
    }

    /// A function of as many arguments as it declares.
    pub fn fixed(
        name: impl Into<String>,
        kinds: impl IntoIterator<Item = Kind>,
        result: Kind,
    ) -> Self {
        let signature = Signature {
            kinds: kinds.into_iter().collect(),
            variadic: Variadic::Fixed,
            result,
        };
        Self::new(name, signature)
    }

    /// The same function with another count of arguments.
    ///
    /// ```
    /// use sandzguli::page::{Function, Page, Record, Variadic};
    /// use sandzguli::Kind;
    ///
    /// let round = Function::fixed("round", [Kind::Vector, Kind::Scalar], Kind::Vector);
    /// let round = round.variadic(Variadic::UpTo(1));
    /// let page = Page::from([Record::selector("up", []), Record::call(round, 1)]);
    /// assert_eq!(sandzguli::canonical(&page.to_bytes()).unwrap(), "round(up)");
    /// ```
    pub fn variadic(mut self, variadic: Variadic) -> Self {
        self.signature.variadic = variadic;
        self
    }
}

/// The function table does not have a name.
#[derive(Debug, Clone, PartialEq, Eq, Hash)]
#[non_exhaustive]
pub struct UnknownFunction {
    /// The name that was asked for.
    pub name: String,
}

impl fmt::Display for UnknownFunction {
    fn fmt(&self, f: &mut fmt::Formatter) -> fmt::Result {
        write!(f, "the function table does not have '{}'", self.name)
    }
}

impl Error for UnknownFunction {}
