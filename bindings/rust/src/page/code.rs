//! The codes of operators and aggregators.

use std::fmt;

/// The codes, each with its case and its word, from 1 on.
macro_rules! codes {
    ($($code:ident $word:literal,)*) => {
        /// An operator (`Add` to `Atan2`) or an aggregator (`Avg` to `LimitRatio`). A page may hold either in both
        /// places; check refuses an aggregator between two operands, and an operator as an aggregator.
        #[derive(Debug, Clone, Copy, PartialEq, Eq, Hash)]
        // Each is named by its word.
        #[allow(missing_docs)]
        pub enum Code {
            $($code,)*
        }

        impl Code {
            /// All codes, No. 1 to 30.
            pub const ALL: [Code; 30] = [$(Code::$code,)*];

            /// The word that a query has for the code.
            pub fn word(self) -> &'static str {
                match self {
                    $(Code::$code => $word,)*
                }
            }
        }
    };
}

codes! {
    Add "+",
    Div "/",
    Eql "==",
    Gte ">=",
    Gtr ">",
    Land "and",
    Lor "or",
    Lss "<",
    Lte "<=",
    Lunless "unless",
    Mod "%",
    Mul "*",
    Neq "!=",
    Pow "^",
    Sub "-",
    Atan2 "atan2",
    Avg "avg",
    Bottomk "bottomk",
    Count "count",
    CountValues "count_values",
    Group "group",
    Max "max",
    Min "min",
    Quantile "quantile",
    Stddev "stddev",
    Stdvar "stdvar",
    Sum "sum",
    Topk "topk",
    Limitk "limitk",
    LimitRatio "limit_ratio",
}

impl Code {
    /// The number that stands for the code on a page.
    ///
    /// ```
    /// use sandzguli::page::Code;
    ///
    /// assert_eq!((Code::Add.number(), Code::Sum.number()), (1, 27));
    /// ```
    pub fn number(self) -> u64 {
        self as u64 + 1
    }

    /// The code of a number from 1 to 30.
    pub fn of_number(number: u64) -> Option<Self> {
        Self::ALL.into_iter().find(|code| code.number() == number)
    }

    /// Whether the code is an aggregator's.
    pub fn is_aggregator(self) -> bool {
        self.number() > Code::Atan2.number()
    }
}

impl fmt::Display for Code {
    fn fmt(&self, f: &mut fmt::Formatter) -> fmt::Result {
        f.write_str(self.word())
    }
}
