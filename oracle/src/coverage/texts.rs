//! The rules of canonical text and of the copy that an accepted page calls on, seen from its records.

use super::Coverage;
use crate::page::code::is_set_operator;
use crate::page::record::*;

impl Coverage {
    pub(super) fn texts(&mut self, records: &[Record], copied: usize) {
        for record in records {
            self.record_text(record);
        }
        for pair in records.windows(2) {
            let is_late_at = matches!(pair, [Record::Offset { .. }, Record::At(_)]);
            self.hit_if(is_late_at, "text: @ printed before an earlier offset");
            self.exception(&pair[0], &pair[1]);
        }
        let is_negated = |pair: &[Record]| matches!(pair, [Record::Number(_), Record::Unary]);
        self.hit_if(records.windows(2).any(is_negated), "copy: negated number");
        let is_twice = |part: &[Record]| {
            matches!(part, [Record::Number(_), Record::Unary, Record::Unary])
                && copied < records.len()
        };
        self.hit_if(
            records.windows(3).any(is_twice),
            "copy: number negated twice",
        );
    }

    fn record_text(&mut self, record: &Record) {
        match record {
            Record::String(text) => self.escapes(&text.text),
            Record::Selector { matchers, .. } => self.matchers(matchers),
            Record::Range(range) => self.duration(*range),
            Record::Subquery { range, step } => {
                self.duration(*range);
                step.iter().for_each(|step| self.duration(*step));
            }
            Record::At(At::After(_)) => self.hit("text: @ with decimals"),
            Record::At(At::Before(_)) => self.hit("text: negative @ is 0.000"),
            Record::Offset {
                is_minus,
                milliseconds,
            } => {
                self.duration(*milliseconds);
                self.hit_if(*is_minus && *milliseconds == 0, "text: offset -0s");
            }
            Record::Binary { code, modifier } => self.binary_text(*code, modifier),
            Record::Aggregate { grouping, .. } => match grouping {
                Grouping::None => {}
                Grouping::By(labels) => self.labels(labels, "text: by () vanishes"),
                Grouping::Without(labels) => self.labels(labels, "text: without () printed"),
            },
            _ => {}
        }
    }

    fn binary_text(&mut self, code: u8, modifier: &Option<Modifier>) {
        if is_set_operator(code) {
            match modifier.as_ref().map(|modifier| &modifier.cardinality) {
                None => self.hit("copy: set operator without modifier"),
                Some(Cardinality::OneToOne) => self.hit("copy: set operator one-to-one"),
                Some(_) => self.hit("copy: set operator many-to-many"),
            }
        }
        let Some(modifier) = modifier else { return };
        match &modifier.matching {
            Matching::None => {}
            Matching::On(labels) => self.labels(labels, "text: on () printed"),
            Matching::Ignoring(labels) => self.labels(labels, "text: ignoring () vanishes"),
        }
        match &modifier.cardinality {
            Cardinality::OneToOne => {}
            Cardinality::GroupLeft(labels) => self.labels(labels, "text: group_left () printed"),
            Cardinality::GroupRight(labels) => self.labels(labels, "text: group_right () printed"),
            Cardinality::ManyToMany => self.hit("text: many-to-many prints nothing"),
        }
        self.fills(modifier.left_fill, modifier.right_fill);
    }

    fn fills(&mut self, left: Option<Number>, right: Option<Number>) {
        let is_zero_pair = matches!(
            (left, right),
            (Some(Number::Whole(0)), Some(Number::NegativeWhole(0)))
        );
        self.hit_if(is_zero_pair, "text: fills 0 and -0");
        let are_nan = (left, right) == (Some(Number::NaN), Some(Number::NaN));
        self.hit_if(are_nan, "text: fills NaN and NaN");
        match (left.map(Number::value), right.map(Number::value)) {
            (None, None) => {}
            (Some(_), None) => self.hit("text: fill_left"),
            (None, Some(_)) => self.hit("text: fill_right"),
            (Some(left), Some(right)) if left == right => self.hit("text: fill"),
            (Some(_), Some(_)) => self.hit("text: fill_left and fill_right"),
        }
        for fill in [left, right].into_iter().flatten() {
            self.hit_if(fill == Number::Inf, "text: fill of inf");
            self.hit_if(fill == Number::NegativeInf, "text: fill of -inf");
            self.hit_if(fill == Number::NaN, "text: fill of NaN");
            self.hit_if(fill == Number::NegativeWhole(0), "text: fill of -0");
        }
    }

    fn labels(&mut self, labels: &[Text], empty: &str) {
        self.hit_if(labels.is_empty(), empty);
        for label in labels {
            let is_quoted = !is_label(&label.text);
            self.hit(["text: label bare", "text: label quoted"][usize::from(is_quoted)]);
            self.hit_if(label.text.is_empty(), "text: empty label");
        }
    }

    fn matchers(&mut self, matchers: &[Matcher]) {
        for matcher in matchers {
            self.hit_if(!is_label(&matcher.name.text), "text: matcher name quoted");
            self.escapes(&matcher.value.text);
        }
        for pair in matchers.windows(2) {
            let [first, second] = pair else { continue };
            let (before, after) = (&first.name.text, &second.name.text);
            self.hit_if(
                is_label(before)
                    && is_label(after)
                    && before > after
                    && !before.starts_with(after.as_ref()),
                "text: matchers put in another order",
            );
            let is_same = before == after
                && first.operation == second.operation
                && first.value.text == second.value.text;
            self.hit_if(is_same, "text: equal matchers kept");
        }
    }

    fn escapes(&mut self, text: &str) {
        self.hit_if(text.contains('\\'), "text: escaped backslash");
        self.hit_if(text.contains('"'), "text: escaped quote");
        self.hit_if(text.contains('\n'), "text: escaped line feed");
        self.hit_if(text.contains('\r'), "text: escaped carriage return");
        self.hit_if(text.contains('\t'), "text: escaped tab");
        let is_raw = |c: char| c.is_ascii_control() && !"\n\r\t".contains(c);
        self.hit_if(text.contains(is_raw), "text: raw control byte");
    }

    /// The units by document 01's rule: years and weeks only if they divide the rest exactly.
    fn duration(&mut self, milliseconds: u64) {
        const DAY: u64 = 86_400_000;
        self.hit_if(milliseconds == 0, "text: duration 0s");
        if milliseconds == 0 {
            return;
        }
        if milliseconds.is_multiple_of(365 * DAY) {
            return self.hit("text: duration in y");
        }
        if milliseconds.is_multiple_of(7 * DAY) {
            return self.hit("text: duration in w");
        }
        self.hit_if(milliseconds > 365 * DAY, "text: a year in days");
        self.hit_if(milliseconds > 7 * DAY, "text: weeks in days");
        let units = [
            ("d", milliseconds / DAY),
            ("h", milliseconds / 3_600_000 % 24),
            ("m", milliseconds / 60_000 % 60),
            ("s", milliseconds / 1_000 % 60),
            ("ms", milliseconds % 1_000),
        ];
        for (unit, count) in units {
            self.hit_if(count > 0, &format!("text: duration in {unit}"));
        }
    }

    /// A call of one argument that only the literal exception lets by.
    fn exception(&mut self, argument: &Record, call: &Record) {
        let (Record::Number(_), Record::Call { signature, .. }) = (argument, call) else {
            return;
        };
        let name = signature.name.text.as_ref();
        let is_excused = signature.kinds.first() != Some(&Kind::Scalar)
            && ["exp", "ln", "log2", "log10"].contains(&name);
        self.hit_if(is_excused, &format!("exception: {name}"));
    }
}

pub(super) fn is_label(text: &str) -> bool {
    let is_start = |c: char| c.is_ascii_alphabetic() || c == '_';
    text.starts_with(is_start) && text.chars().all(|c| is_start(c) || c.is_ascii_digit())
}
