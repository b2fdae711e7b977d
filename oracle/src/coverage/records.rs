//! The parts of every record that was read.

use super::classes::RECORDS;
use super::Coverage;
use crate::page::record::*;

impl Coverage {
    pub(super) fn record(&mut self, record: &Record) {
        let name = RECORDS[usize::from(record.kind_number())];
        self.hit(format!("record {name}"));
        match record {
            Record::Number(number) => self.hit(format!("number {}", form(*number))),
            Record::Selector { name, matchers } => self.selector(name, matchers),
            Record::Subquery { step, .. } => {
                self.hit(["step absent", "step present"][usize::from(step.is_some())]);
            }
            Record::At(at) => self.hit(match at {
                At::Start => "@ start",
                At::End => "@ end",
                At::After(_) => "@ after",
                At::Before(_) => "@ before",
            }),
            Record::Offset { is_minus, .. } => {
                self.hit(["offset plus", "offset minus"][usize::from(*is_minus)]);
            }
            Record::Binary { code, modifier } => {
                self.hit(format!("binary code {code:02}"));
                self.modifier(modifier);
            }
            Record::Aggregate { code, grouping, .. } => {
                self.hit(format!("aggregate code {code:02}"));
                self.hit(match grouping {
                    Grouping::None => "grouping none",
                    Grouping::By(labels) if labels.is_empty() => "grouping by ()",
                    Grouping::By(_) => "grouping by",
                    Grouping::Without(labels) if labels.is_empty() => "grouping without ()",
                    Grouping::Without(_) => "grouping without",
                });
            }
            Record::Call { signature, .. } => self.signature(signature),
            Record::String(_) | Record::Range(_) | Record::Unary | Record::Paren => {}
        }
    }

    fn selector(&mut self, name: &Text, matchers: &[Matcher]) {
        let has_name = usize::from(!name.text.is_empty());
        self.hit(["selector without name", "selector with name"][has_name]);
        let has_matchers = usize::from(!matchers.is_empty());
        self.hit(["selector without matchers", "selector with matchers"][has_matchers]);
        for matcher in matchers {
            self.hit(match matcher.operation {
                Operation::Equal => "matcher =",
                Operation::NotEqual => "matcher !=",
                Operation::Regex(false) => "matcher =~ flag 0",
                Operation::Regex(true) => "matcher =~ flag 1",
                Operation::NotRegex(false) => "matcher !~ flag 0",
                Operation::NotRegex(true) => "matcher !~ flag 1",
            });
        }
    }

    fn modifier(&mut self, modifier: &Option<Modifier>) {
        let Some(modifier) = modifier else {
            return self.hit("modifier absent");
        };
        self.hit("modifier present");
        self.hit(["bool 0", "bool 1"][usize::from(modifier.is_bool)]);
        self.hit(match &modifier.matching {
            Matching::None => "matching none",
            Matching::On(labels) if labels.is_empty() => "matching on ()",
            Matching::On(_) => "matching on",
            Matching::Ignoring(labels) if labels.is_empty() => "matching ignoring ()",
            Matching::Ignoring(_) => "matching ignoring",
        });
        self.hit(match &modifier.cardinality {
            Cardinality::OneToOne => "cardinality one-to-one",
            Cardinality::GroupLeft(labels) if labels.is_empty() => "cardinality group_left ()",
            Cardinality::GroupLeft(_) => "cardinality group_left",
            Cardinality::GroupRight(labels) if labels.is_empty() => "cardinality group_right ()",
            Cardinality::GroupRight(_) => "cardinality group_right",
            Cardinality::ManyToMany => "cardinality many-to-many",
        });
        self.hit(match (modifier.left_fill, modifier.right_fill) {
            (None, None) => "fills none",
            (Some(_), None) => "fills left",
            (None, Some(_)) => "fills right",
            (Some(_), Some(_)) => "fills both",
        });
        for fill in [modifier.left_fill, modifier.right_fill]
            .into_iter()
            .flatten()
        {
            self.hit(format!("fill {}", form(fill)));
        }
    }

    fn signature(&mut self, signature: &Signature) {
        for kind in &signature.kinds {
            self.hit(format!("declared kind {kind:?}"));
        }
        self.hit_if(signature.kinds.is_empty(), "no declared kinds");
        self.hit(match signature.extra {
            Extra::Fixed => "extra fixed",
            Extra::Unlimited => "extra unlimited",
            Extra::Upper(_) => "extra upper",
        });
        self.hit(format!("result kind {:?}", signature.result));
    }
}

fn form(number: Number) -> &'static str {
    match number {
        Number::Whole(_) => "Whole",
        Number::NegativeWhole(_) => "NegativeWhole",
        Number::NaN => "NaN",
        Number::Inf => "Inf",
        Number::NegativeInf => "NegativeInf",
        Number::Fraction(_) => "Fraction",
        Number::NegativeFraction(_) => "NegativeFraction",
    }
}
