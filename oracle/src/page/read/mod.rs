//! Reading of records, written from document 01 and from No. 5 and No. 10 of document 02 alone: the fields in order,
//! the first faulty one decides.

mod field;
mod partly;

pub use field::{Fault, NumberField, Reader, TextField};

use super::record::*;
use super::text_kind::TextKind;
use super::{MAX_AT_MILLISECONDS, MAX_UPPER};
use field::{Read, BAD, LIMIT};

impl<'a> Reader<'a> {
    fn labels(&mut self, kind: TextKind) -> Read<Labels<'a>> {
        self.list(|reader| reader.text(kind))
    }

    fn kind(&mut self) -> Read<Kind> {
        Ok(Kind::ALL[self.choice(4)? as usize])
    }

    /// Digits, then places; whatever is no fraction is 1.
    fn fraction(&mut self) -> Read<Fraction> {
        let (digits, places) = (self.number()?, self.number()?);
        Fraction::new(digits, places).ok_or(BAD)
    }

    fn literal(&mut self, holder: Holder) -> Read<Number> {
        let start = self.position();
        self.literal = Some(NumberField { holder, start });
        Ok(match self.choice(7)? {
            0 => Number::Whole(self.number()?),
            1 => Number::NegativeWhole(self.number()?),
            2 => Number::NaN,
            3 => Number::Inf,
            4 => Number::NegativeInf,
            5 => Number::Fraction(self.fraction()?),
            _ => Number::NegativeFraction(self.fraction()?),
        })
    }

    fn matcher(&mut self) -> Read<Matcher<'a>> {
        let operation = self.choice(4)?;
        let name = self.text(TextKind::MatcherName)?;
        let value = self.text(match operation {
            0 | 1 => TextKind::MatcherValue,
            2 => TextKind::Regex,
            _ => TextKind::NotRegex,
        })?;
        let operation = match operation {
            0 => Operation::Equal,
            1 => Operation::NotEqual,
            2 => Operation::Regex(self.flag()?),
            _ => Operation::NotRegex(self.flag()?),
        };
        Ok(Matcher {
            operation,
            name,
            value,
        })
    }

    fn selector(&mut self) -> Read<Record<'a>> {
        Ok(Record::Selector {
            name: self.name(TextKind::MetricName, is_metric_name_or_empty)?,
            matchers: self.list(Self::matcher)?,
        })
    }

    fn subquery(&mut self) -> Read<Record<'a>> {
        let range = self.number()?;
        let step = if self.flag()? {
            Some(self.number()?)
        } else {
            None
        };
        Ok(Record::Subquery { range, step })
    }

    fn at_time(&mut self) -> Read<u64> {
        let milliseconds = self.number()?;
        if milliseconds > MAX_AT_MILLISECONDS {
            return Err(LIMIT);
        }
        Ok(milliseconds)
    }

    fn at_modifier(&mut self) -> Read<At> {
        match self.choice(4)? {
            0 => Ok(At::Start),
            1 => Ok(At::End),
            2 => Ok(At::After(self.at_time()?)),
            _ => match self.at_time()? {
                0 => Err(BAD),
                milliseconds => Ok(At::Before(milliseconds)),
            },
        }
    }

    fn offset(&mut self) -> Read<Record<'a>> {
        Ok(Record::Offset {
            is_minus: self.flag()?,
            milliseconds: self.number()?,
        })
    }

    fn code(&mut self) -> Read<u8> {
        match self.choice(31)? {
            0 => Err(BAD),
            code => Ok(code as u8),
        }
    }

    fn matching(&mut self) -> Read<Matching<'a>> {
        Ok(match self.choice(3)? {
            0 => Matching::None,
            1 => Matching::On(self.labels(TextKind::On)?),
            _ => Matching::Ignoring(self.labels(TextKind::Ignoring)?),
        })
    }

    fn cardinality(&mut self) -> Read<Cardinality<'a>> {
        Ok(match self.choice(4)? {
            0 => Cardinality::OneToOne,
            1 => Cardinality::GroupLeft(self.labels(TextKind::GroupLeft)?),
            2 => Cardinality::GroupRight(self.labels(TextKind::GroupRight)?),
            _ => Cardinality::ManyToMany,
        })
    }

    fn fill(&mut self, side: Holder) -> Read<Option<Number>> {
        if self.flag()? {
            self.literal(side).map(Some)
        } else {
            Ok(None)
        }
    }

    fn modifier(&mut self) -> Read<Modifier<'a>> {
        Ok(Modifier {
            is_bool: self.flag()?,
            matching: self.matching()?,
            cardinality: self.cardinality()?,
            left_fill: self.fill(Holder::LeftFill)?,
            right_fill: self.fill(Holder::RightFill)?,
        })
    }

    fn binary(&mut self) -> Read<Record<'a>> {
        let code = self.code()?;
        let modifier = if self.flag()? {
            Some(self.modifier()?)
        } else {
            None
        };
        Ok(Record::Binary { code, modifier })
    }

    fn aggregate(&mut self) -> Read<Record<'a>> {
        let code = self.code()?;
        let grouping = match self.choice(3)? {
            0 => Grouping::None,
            1 => Grouping::By(self.labels(TextKind::By)?),
            _ => Grouping::Without(self.labels(TextKind::Without)?),
        };
        let arguments = self.count()?;
        Ok(Record::Aggregate {
            code,
            grouping,
            arguments,
        })
    }

    fn extra(&mut self) -> Read<Extra> {
        match self.choice(3)? {
            0 => Ok(Extra::Fixed),
            1 => Ok(Extra::Unlimited),
            _ => match self.number()? {
                0 => Err(BAD),
                upper if upper > MAX_UPPER => Err(LIMIT),
                upper => Ok(Extra::Upper(upper)),
            },
        }
    }

    fn call(&mut self) -> Read<Record<'a>> {
        let signature = Signature {
            name: self.name(TextKind::FunctionName, is_function_name)?,
            kinds: self.list(Self::kind)?,
            extra: self.extra()?,
            result: self.kind()?,
        };
        let arguments = self.count()?;
        Ok(Record::Call {
            signature,
            arguments,
        })
    }

    /// The next record, or the refusal of its first faulty field.
    pub fn record(&mut self) -> Read<Record<'a>> {
        match self.choice(12)? {
            0 => self.literal(Holder::Record).map(Record::Number),
            1 => self.text(TextKind::String).map(Record::String),
            2 => self.selector(),
            3 => self.number().map(Record::Range),
            4 => self.subquery(),
            5 => self.at_modifier().map(Record::At),
            6 => self.offset(),
            7 => Ok(Record::Unary),
            8 => Ok(Record::Paren),
            9 => self.binary(),
            10 => self.aggregate(),
            _ => self.call(),
        }
    }
}

/// A letter, `_` or `:`, then these or digits; length 0 stands for no name.
fn is_metric_name_or_empty(text: &str) -> bool {
    let is_start = |c: char| c.is_ascii_alphabetic() || c == '_' || c == ':';
    text.is_empty() || is_name(text, is_start)
}

/// Like a metric name without `:`, not empty.
pub fn is_function_name(text: &str) -> bool {
    is_name(text, |c| c.is_ascii_alphabetic() || c == '_')
}

fn is_name(text: &str, is_start: impl Fn(char) -> bool) -> bool {
    text.starts_with(&is_start) && text.chars().all(|c| is_start(c) || c.is_ascii_digit())
}
