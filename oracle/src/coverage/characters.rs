//! Characters beyond ASCII in texts that pass (document 02, No. 10): in every kind of text, of every length, next to
//! escapes, in the order of matchers, in labels that two lists share.

use super::texts::is_label;
use super::Coverage;
use crate::answer::Worked;
use crate::generate::alphabet::{EDGES, SPELLINGS};
use crate::page::record::*;
use crate::page::text_kind::TextKind;
use crate::tree::{self, Pattern};

const LABEL_QUOTED: &str = "characters: a label quoted for one";
const MATCHER_NAME_QUOTED: &str = "characters: a matcher name quoted for one";

#[rustfmt::skip]
const NAMED: &[&str] = &[
    "characters: an escape before a longer one", "characters: an escape after a longer one", LABEL_QUOTED,
    MATCHER_NAME_QUOTED, "characters: 255 bytes, the last one whole", "characters: pattern, flag 0",
    "characters: pattern, flag 1", "characters: the label of 19",
    "characters: two spellings of one accent in on and group", "characters: two spellings of one accent in matchers",
    "characters: quoted matcher put before a bare one", "characters: matchers put in order by one and ASCII",
    "characters: matchers put in order by two", "characters: matchers put in order by three bytes and four",
];

pub(super) fn classes() -> Vec<String> {
    let mut classes: Vec<String> = NAMED.iter().map(ToString::to_string).collect();
    for kind in TextKind::ALL.into_iter().filter(|kind| !kind.is_name()) {
        classes.extend((2..=4).map(|bytes| in_kind(kind, bytes)));
    }
    classes.extend(EDGES.map(edge));
    classes
}

fn in_kind(kind: TextKind, bytes: usize) -> String {
    format!("characters: {}, {bytes} bytes", kind.words())
}

fn edge(character: char) -> String {
    format!("characters: U+{:04X}", u32::from(character))
}

impl Coverage {
    /// Of an accepted page; and the label of 19, of a page that is refused so.
    pub(super) fn characters(&mut self, worked: &Worked) {
        if let Some(label) = worked.label {
            let bytes = &worked.page[label.start..label.start + label.length];
            self.hit_if(!bytes.is_ascii(), "characters: the label of 19");
        }
        if worked.checked.is_none() {
            return;
        }
        for record in &worked.records {
            for (kind, text) in record.texts() {
                self.text_characters(kind, &text.text);
            }
            match record {
                Record::Selector { matchers, .. } => self.matcher_characters(matchers),
                Record::Binary {
                    modifier: Some(modifier),
                    ..
                } => self.modifier_characters(modifier),
                _ => {}
            }
        }
    }

    fn text_characters(&mut self, kind: TextKind, text: &str) {
        for character in text.chars() {
            if !character.is_ascii() {
                self.hit(in_kind(kind, character.len_utf8()));
            }
            self.hit_if(EDGES.contains(&character), &edge(character));
        }
        let is_escaped = |character: char| "\\\"\n\r\t".contains(character);
        for (first, second) in text.chars().zip(text.chars().skip(1)) {
            let is_before = is_escaped(first) && !second.is_ascii();
            self.hit_if(is_before, "characters: an escape before a longer one");
            let is_after = !first.is_ascii() && is_escaped(second);
            self.hit_if(is_after, "characters: an escape after a longer one");
        }
        let is_whole = text.len() == 255 && !text.ends_with(|last: char| last.is_ascii());
        self.hit_if(is_whole, "characters: 255 bytes, the last one whole");
        self.hit_if(is_quoted_for_one(text) && kind.is_label(), LABEL_QUOTED);
        let is_name = kind == TextKind::MatcherName;
        self.hit_if(is_quoted_for_one(text) && is_name, MATCHER_NAME_QUOTED);
    }

    fn matcher_characters(&mut self, matchers: &[Matcher]) {
        for matcher in matchers {
            let is_longer = !matcher.value.text.is_ascii();
            if is_longer && tree::pattern(matcher) == Pattern::FlagTrue {
                self.flag(matcher.operation);
            }
        }
        let has = |spelling| matchers.iter().any(|matcher| matcher.name.text == spelling);
        let has_both = SPELLINGS.into_iter().all(has);
        self.hit_if(
            has_both,
            "characters: two spellings of one accent in matchers",
        );
        let printed = |matcher: &Matcher| tree::matcher(matcher).to_string();
        for pair in matchers.windows(2) {
            self.order(&printed(&pair[0]), &printed(&pair[1]));
        }
    }

    fn flag(&mut self, operation: Operation) {
        match operation {
            Operation::Equal | Operation::NotEqual => {}
            Operation::Regex(false) | Operation::NotRegex(false) => {
                self.hit("characters: pattern, flag 0");
            }
            Operation::Regex(true) | Operation::NotRegex(true) => {
                self.hit("characters: pattern, flag 1");
            }
        }
    }

    /// Two matchers, one after the other on the page, as they are printed: in the other order, by their first
    /// difference.
    fn order(&mut self, before: &str, after: &str) {
        let differing = before
            .bytes()
            .zip(after.bytes())
            .find(|(first, second)| first != second);
        let Some((first, second)) = differing.filter(|_| before > after) else {
            return;
        };
        let is_quoted = second == b'"' && !after.is_ascii();
        self.hit_if(
            is_quoted,
            "characters: quoted matcher put before a bare one",
        );
        match (first > 127, second > 127) {
            (true, true) => self.hit("characters: matchers put in order by two"),
            (true, false) | (false, true) => {
                self.hit("characters: matchers put in order by one and ASCII")
            }
            (false, false) => {}
        }
        let is_utf16 = matches!((first, second), (0xf0..=0xf4, 0xee..=0xef));
        self.hit_if(
            is_utf16,
            "characters: matchers put in order by three bytes and four",
        );
    }

    fn modifier_characters(&mut self, modifier: &Modifier) {
        let Matching::On(on) = &modifier.matching else {
            return;
        };
        let (Cardinality::GroupLeft(group) | Cardinality::GroupRight(group)) =
            &modifier.cardinality
        else {
            return;
        };
        let has =
            |labels: &[Text], spelling: &str| labels.iter().any(|label| label.text == spelling);
        let [one, other] = SPELLINGS;
        let are_apart = has(on, one) && has(group, other) || has(on, other) && has(group, one);
        self.hit_if(
            are_apart,
            "characters: two spellings of one accent in on and group",
        );
    }
}

/// Whether the text would be printed bare with letters in place of its longer characters.
fn is_quoted_for_one(text: &str) -> bool {
    let letters = text.replace(|character: char| !character.is_ascii(), "a");
    !text.is_ascii() && is_label(&letters)
}
