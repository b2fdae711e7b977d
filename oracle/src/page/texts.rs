//! The texts of a record in their order, with what each is.

use super::record::*;
use super::text_kind::TextKind;

fn labels<'r, 'a>(kind: TextKind, labels: &'r [Text<'a>]) -> Vec<(TextKind, &'r Text<'a>)> {
    labels.iter().map(|label| (kind, label)).collect()
}

impl<'a> Record<'a> {
    pub fn texts(&self) -> Vec<(TextKind, &Text<'a>)> {
        match self {
            Record::String(text) => vec![(TextKind::String, text)],
            Record::Selector { name, matchers } => {
                let mut texts = vec![(TextKind::MetricName, name)];
                texts.extend(matchers.iter().flat_map(Matcher::texts));
                texts
            }
            Record::Binary {
                modifier: Some(modifier),
                ..
            } => modifier.texts(),
            Record::Aggregate { grouping, .. } => match grouping {
                Grouping::None => Vec::new(),
                Grouping::By(list) => labels(TextKind::By, list),
                Grouping::Without(list) => labels(TextKind::Without, list),
            },
            Record::Call { signature, .. } => vec![(TextKind::FunctionName, &signature.name)],
            _ => Vec::new(),
        }
    }
}

impl<'a> Matcher<'a> {
    fn texts(&self) -> [(TextKind, &Text<'a>); 2] {
        let value = TextKind::of_value(self.operation);
        [(TextKind::MatcherName, &self.name), (value, &self.value)]
    }
}

impl<'a> Modifier<'a> {
    fn texts(&self) -> Vec<(TextKind, &Text<'a>)> {
        let mut texts = match &self.matching {
            Matching::None => Vec::new(),
            Matching::On(list) => labels(TextKind::On, list),
            Matching::Ignoring(list) => labels(TextKind::Ignoring, list),
        };
        texts.extend(match &self.cardinality {
            Cardinality::OneToOne | Cardinality::ManyToMany => Vec::new(),
            Cardinality::GroupLeft(list) => labels(TextKind::GroupLeft, list),
            Cardinality::GroupRight(list) => labels(TextKind::GroupRight, list),
        });
        texts
    }
}
