//! Reading of records: the fields in order, the first faulty one decides.

use super::field::{ensure, Field, Reader};
use super::*;
use crate::{Kind, Rule, PAGE_BYTES, RECORDS};

/// The latest time of @, in milliseconds, and the highest upper extra.
const MAX_TIME: u64 = 1_000_000_000_000_000;
const MAX_UPPER: u64 = 16;

impl Reader<'_> {
    fn labels(&mut self) -> Field<Vec<String>> {
        self.list(Self::text)
    }

    fn kind(&mut self) -> Field<Kind> {
        Kind::of_number(self.number()?).ok_or(Rule::BadField)
    }

    fn code(&mut self) -> Field<Code> {
        Code::of_number(self.number()?).ok_or(Rule::BadField)
    }

    /// 0, or 1 and a value.
    fn option<T>(&mut self, value: fn(&mut Self) -> Field<T>) -> Field<Option<T>> {
        self.flag()?.then(|| value(self)).transpose()
    }

    fn literal(&mut self) -> Field<Literal> {
        Ok(match self.choice(7)? {
            0 => Literal::Whole(self.number()?),
            1 => Literal::Negative(self.number()?),
            2 => Literal::Nan,
            3 => Literal::Inf,
            4 => Literal::NegInf,
            5 => self.fraction(false)?,
            _ => self.fraction(true)?,
        })
    }

    /// Digits and places. Whatever is wrong with them is 1, so that both are read before their ranges are looked at.
    fn fraction(&mut self, minus: bool) -> Field<Literal> {
        let digits = self.number()?;
        let places = self.number()?;
        Literal::fraction(minus, digits, places).ok_or(Rule::BadField)
    }

    fn matcher(&mut self) -> Field<Matcher> {
        let op = self.choice(4)?;
        let name = self.text()?;
        let value = self.text()?;
        let op = match op {
            0 => MatchOp::Equal,
            1 => MatchOp::NotEqual,
            2 => MatchOp::Re {
                matches_empty: self.flag()?,
            },
            _ => MatchOp::NotRe {
                matches_empty: self.flag()?,
            },
        };
        Ok(Matcher { op, name, value })
    }

    fn at(&mut self) -> Field<AtModifier> {
        Ok(match self.choice(4)? {
            0 => AtModifier::Start,
            1 => AtModifier::End,
            2 => AtModifier::After(self.number_within(MAX_TIME)?),
            _ => {
                let milliseconds = self.number_within(MAX_TIME)?;
                AtModifier::Before(ensure(milliseconds > 0, milliseconds, Rule::BadField)?)
            }
        })
    }

    fn offset(&mut self) -> Field<Offset> {
        Ok(match self.flag()? {
            false => Offset::Plus(self.number()?),
            true => Offset::Minus(self.number()?),
        })
    }

    fn label_modifier(&mut self) -> Field<LabelModifier> {
        Ok(match self.choice(3)? {
            0 => LabelModifier::None,
            1 => LabelModifier::Include(self.labels()?),
            _ => LabelModifier::Exclude(self.labels()?),
        })
    }

    fn cardinality(&mut self) -> Field<Cardinality> {
        Ok(match self.choice(4)? {
            0 => Cardinality::OneToOne,
            1 => Cardinality::ManyToOne(self.labels()?),
            2 => Cardinality::OneToMany(self.labels()?),
            _ => Cardinality::ManyToMany,
        })
    }

    fn bin_modifier(&mut self) -> Field<BinModifier> {
        Ok(BinModifier {
            returns_bool: self.flag()?,
            matching: self.label_modifier()?,
            cardinality: self.cardinality()?,
            left_fill: self.option(Self::literal)?,
            right_fill: self.option(Self::literal)?,
        })
    }

    fn variadic(&mut self) -> Field<Variadic> {
        Ok(match self.choice(3)? {
            0 => Variadic::Fixed,
            1 => Variadic::Unlimited,
            _ => {
                let upper = self.number_within(MAX_UPPER)?;
                Variadic::UpTo(ensure(upper > 0, upper, Rule::BadField)?)
            }
        })
    }

    fn signature(&mut self) -> Field<Signature> {
        Ok(Signature {
            kinds: self.list(Self::kind)?,
            variadic: self.variadic()?,
            result: self.kind()?,
        })
    }

    fn function(&mut self) -> Field<Function> {
        Ok(Function {
            name: self.function_name()?,
            signature: self.signature()?,
        })
    }

    fn record(&mut self) -> Field<Record> {
        Ok(match self.choice(12)? {
            0 => Record::Number(self.literal()?),
            1 => Record::String(self.text()?),
            2 => Record::Selector {
                name: self.metric_name()?,
                matchers: self.list(Self::matcher)?,
            },
            3 => Record::Range(self.number()?),
            4 => Record::Subquery {
                range: self.number()?,
                step: self.option(Self::number)?,
            },
            5 => Record::At(self.at()?),
            6 => Record::Offset(self.offset()?),
            7 => Record::Unary,
            8 => Record::Paren,
            9 => Record::Binary {
                code: self.code()?,
                modifier: self.option(Self::bin_modifier)?,
            },
            10 => Record::Aggregate {
                code: self.code()?,
                grouping: self.label_modifier()?,
                arguments: self.count()?,
            },
            _ => Record::Call {
                function: self.function()?,
                arguments: self.count()?,
            },
        })
    }
}

/// A signature by itself, from the first of these bytes on.
pub fn signature(bytes: &[u8]) -> Field<Signature> {
    Reader { rest: bytes }.signature()
}

/// All records of a page, or the first one that cannot be read.
pub fn records(bytes: &[u8]) -> Result<Vec<Record>, Refusal> {
    if bytes.len() > PAGE_BYTES {
        return Err(Refusal::new(Rule::PastLimit, 0));
    }
    let mut reader = Reader { rest: bytes };
    let mut records = Vec::new();
    while !reader.rest.is_empty() {
        let record = records.len();
        if record == RECORDS {
            return Err(Refusal::new(Rule::PastLimit, record));
        }
        let read = reader.record();
        records.push(read.map_err(|rule| Refusal::new(rule, record))?);
    }
    Ok(records)
}
