//! Texts that are the reason of 1, 3 or 4 (document 02, No. 10): which kind of text, how it is ill-formed, what
//! follows.

use super::Coverage;
use crate::answer::{Outcome, Worked};
use crate::ill_formed::{completes, Found, IllFormed};
use crate::page::read::TextField;
use crate::page::text_kind::TextKind;

#[rustfmt::skip]
const NAMED: &[&str] = &[
    "ill-formed: 255 bytes, the last character cut short", "ill-formed: 4 on an empty stack",
    "ill-formed: 1 before 4", "ill-formed: 1 before 3 and 4", "ill-formed: 3 before 4",
    "characters: too long in bytes, not in characters",
];

pub(super) fn classes() -> Vec<String> {
    let mut classes: Vec<String> = NAMED.iter().map(ToString::to_string).collect();
    for kind in TextKind::ALL {
        classes.extend(IllFormed::ALL.map(|fault| in_kind(kind, fault)));
        classes.push(completed(kind));
        if kind.is_name() {
            classes.extend((2..=4).map(|bytes| no_name(kind, bytes)));
        }
    }
    for fault in IllFormed::ALL {
        classes.extend(
            fault
                .may_be_followed()
                .iter()
                .map(|is_followed| followed(fault, *is_followed)),
        );
    }
    classes
}

fn in_kind(kind: TextKind, fault: IllFormed) -> String {
    format!("ill-formed: {}, {}", kind.words(), fault.words())
}

fn completed(kind: TextKind) -> String {
    format!(
        "ill-formed: {}, the page's next bytes would complete it",
        kind.words()
    )
}

fn no_name(kind: TextKind, bytes: usize) -> String {
    format!("characters: {} refused, {bytes} bytes", kind.words())
}

fn followed(fault: IllFormed, is_followed: bool) -> String {
    let after = ["nothing", "bytes"][usize::from(is_followed)];
    format!("ill-formed: {}, {after} after it", fault.words())
}

impl Coverage {
    /// The text at which reading stopped, if it stopped at one.
    pub(super) fn unread_text(&mut self, worked: &Worked) {
        let (Outcome::Refused { number, record }, Some(field)) = (worked.outcome, worked.text)
        else {
            return;
        };
        let bytes = field.bytes(worked.page);
        let found = IllFormed::find(bytes);
        let is_cut = field.length > bytes.len() as u64;
        let is_long = field.length > field.kind.limit();
        match number {
            1 if is_cut && found.is_some() => {
                self.hit(
                    ["ill-formed: 1 before 4", "ill-formed: 1 before 3 and 4"]
                        [usize::from(is_long)],
                );
            }
            3 if is_long => self.too_long(&field, bytes),
            4 => {
                let is_operator = field.kind.is_label() && record == 0;
                self.hit_if(is_operator, "ill-formed: 4 on an empty stack");
                self.refused_text(worked.page, &field, found);
            }
            _ => {}
        }
    }

    fn too_long(&mut self, field: &TextField, bytes: &[u8]) {
        match std::str::from_utf8(bytes) {
            Err(_) => self.hit("ill-formed: 3 before 4"),
            Ok(text) => {
                let is_short = text.chars().count() as u64 <= field.kind.limit();
                self.hit_if(is_short, "characters: too long in bytes, not in characters");
            }
        }
    }

    fn refused_text(&mut self, page: &[u8], field: &TextField, found: Option<Found>) {
        let bytes = field.bytes(page);
        let Some(found) = found else {
            return self.no_name(field.kind, bytes);
        };
        self.hit(in_kind(field.kind, found.fault));
        self.hit(followed(found.fault, found.is_followed));
        let next = &page[field.start + bytes.len()..];
        self.hit_if(completes(bytes, next), &completed(field.kind));
        let is_cut = bytes.len() == 255 && found.fault == IllFormed::CutByEnd;
        self.hit_if(
            is_cut,
            "ill-formed: 255 bytes, the last character cut short",
        );
    }

    /// A name that is well-formed and no name; by its longer characters, if it has any.
    fn no_name(&mut self, kind: TextKind, bytes: &[u8]) {
        let characters = String::from_utf8_lossy(bytes);
        for character in characters.chars().filter(|character| !character.is_ascii()) {
            self.hit(no_name(kind, character.len_utf8()));
        }
    }
}
