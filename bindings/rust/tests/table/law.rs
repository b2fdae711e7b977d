//! What a check with a table answers, from what check answers and what the table has for a name.

use sandzguli::page::{Page, Record, Signature};
use sandzguli::{check, Kind, Refusal, Rule, PAGE_BYTES};

/// The first call that the table refuses, among the records that can be read up to one of them.
fn first_unlike(
    page: &[u8],
    end: usize,
    table: impl Fn(&str) -> Option<Signature>,
) -> Option<Refusal> {
    let records = (1..=page.len())
        .rev()
        .find_map(|length| Page::read(&page[..length]).ok())?
        .records;
    let mut records = records.iter().zip(0..end);
    records.find_map(|(record, index)| {
        let Record::Call { function, .. } = record else {
            return None;
        };
        let rule = match table(&function.name) {
            None => Rule::UnknownFunction,
            Some(known) if known != function.signature => Rule::UnlikeSignature,
            Some(_) => return None,
        };
        Some(Refusal::new(rule, index))
    })
}

/// What check and the table say together: the first call that is unlike up to the record that check refuses, else what
/// check says. A record that cannot be read is no call, and of a page that is too long none is read.
pub fn expected(page: &[u8], table: impl Fn(&str) -> Option<Signature>) -> Result<Kind, Refusal> {
    let checked = check(page);
    if page.len() > PAGE_BYTES {
        return checked;
    }
    let end = checked.map_or_else(|refusal| refusal.record + 1, |_| usize::MAX);
    first_unlike(page, end, table).map_or(checked, Err)
}

/// The page with the table's signature in every call that the table has.
pub fn signed(page: &[u8], table: impl Fn(&str) -> Option<Signature>) -> Option<Vec<u8>> {
    let mut page = Page::read(page).ok()?;
    for record in &mut page.records {
        if let Record::Call { function, .. } = record {
            if let Some(known) = table(&function.name) {
                function.signature = known;
            }
        }
    }
    Some(page.to_bytes())
}
