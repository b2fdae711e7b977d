//! What comes before 41 and what comes after it.

use super::super::Coverage;
use crate::answer::{self, Outcome, Worked};
use crate::page::read::Reader;
use crate::page::record::*;
use crate::page::write;
use crate::refusal::WRONG_FLAG;
use crate::tree::{has_wrong_flag, pattern, Pattern};

#[rustfmt::skip]
const NAMED: &[&str] = &[
    "patterns: 41 at record 0", "patterns: 41 at a later record", "patterns: 41 at record 255",
    "patterns: 41, the only fault", "patterns: 41 before 33", "patterns: 41 before 34",
    "patterns: 41 where the true flag gives 34", "patterns: 41 on `__name__`",
    "patterns: 41, several expressions below", "patterns: 41 before a record that cannot be read",
    "patterns: 41 before a record without its operands", "patterns: 41 before another 41",
    "patterns: 1 of a later matcher before 41", "patterns: 3 of a later matcher before 41",
    "patterns: 4 of a later matcher before 41", "patterns: the page's end before 41",
    "patterns: 2 of an earlier record before 41", "patterns: 3 of the 257th record before 41",
    "patterns: 34 of an earlier record before 41",
];

pub(super) fn classes() -> Vec<String> {
    NAMED.iter().map(ToString::to_string).collect()
}

impl Coverage {
    pub(super) fn flag_order(&mut self, worked: &Worked) {
        let Outcome::Refused { number, record } = worked.outcome else {
            return;
        };
        let rest = &worked.page[write::page(&worked.records).len().min(worked.page.len())..];
        match number {
            WRONG_FLAG => {
                self.wrong_flag(worked, record, rest);
                self.behind(rest);
            }
            1 | 3 | 4 if record == worked.records.len() => self.field_first(number, record, rest),
            2 | 34 if has_wrong_flag_next(rest) => {
                self.hit(format!("patterns: {number} of an earlier record before 41"));
            }
            _ => {}
        }
    }

    fn wrong_flag(&mut self, worked: &Worked, record: usize, rest: &[u8]) {
        let later = ["patterns: 41 at record 0", "patterns: 41 at a later record"];
        self.hit(later[usize::from(record > 0)]);
        self.hit_if(record == 255, "patterns: 41 at record 255");
        let taken: usize = worked.records.iter().map(Record::operands).sum();
        self.hit_if(
            worked.records.len() - taken > 2,
            "patterns: 41, several expressions below",
        );
        let Some(Record::Selector { name, matchers }) = worked.records.last() else {
            panic!("41 is refused at a selector");
        };
        self.other_rows(name, matchers);
        if rest.is_empty() {
            let is_accepted = matches!(put_right(worked).outcome, Outcome::Accepted(_));
            self.hit_if(is_accepted, "patterns: 41, the only fault");
        }
    }

    /// Whether 33 or 34 would refuse the selector too.
    fn other_rows(&mut self, name: &Text, matchers: &[Matcher]) {
        let is_name = |matcher: &&Matcher| matcher.name.text == "__name__";
        let is_wrong = |matcher: &Matcher| pattern(matcher) == Pattern::FlagWrong;
        let has_name = !name.text.is_empty();
        let is_twice = has_name && matchers.iter().any(|matcher| is_name(&matcher));
        self.hit_if(is_twice, "patterns: 41 before 33");
        let is_on_name = matchers.iter().filter(is_name).any(is_wrong);
        self.hit_if(is_on_name, "patterns: 41 on `__name__`");
        let is_all = !has_name && matchers.iter().all(Matcher::accepts_empty);
        self.hit_if(is_all, "patterns: 41 before 34");
        let accepts = |matcher: &Matcher| matcher.accepts_empty() != is_wrong(matcher);
        let is_all_truly = !has_name && matchers.iter().all(accepts);
        self.hit_if(is_all_truly, "patterns: 41 where the true flag gives 34");
    }

    /// The record behind one that is refused with 41.
    fn behind(&mut self, rest: &[u8]) {
        if rest.is_empty() {
            return;
        }
        match Reader::new(rest).record() {
            Err(_) => self.hit("patterns: 41 before a record that cannot be read"),
            Ok(record) => {
                let is_without = record.operands() > 1;
                self.hit_if(
                    is_without,
                    "patterns: 41 before a record without its operands",
                );
                self.hit_if(has_wrong_flag(&record), "patterns: 41 before another 41");
            }
        }
    }

    /// A selector that cannot be read, of which an earlier matcher has a wrong flag; or a 257th record with one.
    fn field_first(&mut self, number: u8, record: usize, rest: &[u8]) {
        if number == 3 && record == 256 {
            let class = "patterns: 3 of the 257th record before 41";
            return self.hit_if(has_wrong_flag_next(rest), class);
        }
        let mut reader = Reader::new(rest);
        let matchers = reader.first_matchers();
        let is_wrong = |matcher: &Matcher| pattern(matcher) == Pattern::FlagWrong;
        if matchers.iter().any(is_wrong) {
            self.hit(format!("patterns: {number} of a later matcher before 41"));
            self.hit_if(reader.is_at_end(), "patterns: the page's end before 41");
        }
    }
}

/// Whether the next record is a selector with a wrong flag.
fn has_wrong_flag_next(rest: &[u8]) -> bool {
    let next = Reader::new(rest).record();
    next.is_ok_and(|record| has_wrong_flag(&record))
}

/// The page with its last selector's wrong flags turned, worked again.
fn put_right<'a>(worked: &Worked<'a>) -> answer::Answer {
    let mut records = worked.records.clone();
    if let Some(Record::Selector { matchers, .. }) = records.last_mut() {
        for matcher in matchers {
            let is_wrong = pattern(matcher) == Pattern::FlagWrong;
            if let Operation::Regex(flag) | Operation::NotRegex(flag) = &mut matcher.operation {
                *flag ^= is_wrong;
            }
        }
    }
    let page = write::page(&records);
    answer::answer(&page).expect("the Rust is foreseen")
}
