//! The signatures of calls: name, declared kinds, how many more arguments there may be, result.

use super::{replaced, varied, Change};
use crate::page::record::*;
use crate::page::{MAX_FUNCTION_NAME_BYTES, MAX_LIST, MAX_UPPER};
use crate::random::Random;

pub const CHANGES: &[Change] = &[
    Change::other(
        "a function and one with a longer name",
        |random, records| {
            signature(random, records, |_, signature| {
                let name = &signature.name.text;
                let has_room = (name.len() as u64) < MAX_FUNCTION_NAME_BYTES;
                let longer = has_room.then(|| format!("{name}x"))?;
                signature.name = Text::from(longer.as_str());
                Some(())
            })
        },
    ),
    Change::other("declared kinds and one more", |random, records| {
        signature(random, records, |_, signature| {
            let last = *signature.kinds.last()?;
            let has_room = (signature.kinds.len() as u64) < MAX_LIST;
            has_room.then(|| signature.kinds.push(last))
        })
    }),
    Change::other("a declared kind and another", |random, records| {
        signature(random, records, |random, signature| {
            let kind = signature.kinds.last_mut()?;
            *kind = other(random, *kind);
            Some(())
        })
    }),
    Change::other("unlimited arguments and sixteen more", |random, records| {
        extra(random, records, [Extra::Unlimited, Extra::Upper(MAX_UPPER)])
    }),
    Change::other("no more arguments and one more", |random, records| {
        extra(random, records, [Extra::Fixed, Extra::Upper(1)])
    }),
    Change::other("a result and one of another kind", |random, records| {
        signature(random, records, |random, signature| {
            signature.result = other(random, signature.result);
            Some(())
        })
    }),
];

fn other(random: &mut Random, kind: Kind) -> Kind {
    loop {
        let other = *random.pick(&Kind::ALL);
        if other != kind {
            return other;
        }
    }
}

fn signature<'a>(
    random: &mut Random,
    records: &mut [Record<'a>],
    change: impl Fn(&mut Random, &mut Signature<'a>) -> Option<()>,
) -> Option<Vec<Record<'a>>> {
    replaced(random, records, |random, record| {
        let mut other = record.clone();
        match &mut other {
            Record::Call { signature, .. } => change(random, signature)?,
            _ => return None,
        }
        Some(other)
    })
}

fn extra<'a>(
    random: &mut Random,
    records: &mut [Record<'a>],
    pair: [Extra; 2],
) -> Option<Vec<Record<'a>>> {
    replaced(random, records, |_, record| {
        varied(record, extra_of, |_| Some(pair))
    })
}

fn extra_of<'r>(record: &'r mut Record) -> Option<&'r mut Extra> {
    match record {
        Record::Call { signature, .. } => Some(&mut signature.extra),
        _ => None,
    }
}
