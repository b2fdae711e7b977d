//! What the operators document asks of limitk and limit_ratio (document 02, No. 8): "The operators document gives limitk
//! and limit_ratio a scalar parameter". And which records of a page left the operands of a record.

use crate::page::code::is_limit;
use crate::page::record::{Kind, Record};
use crate::refusal::LIMIT_PARAMETER;

/// "42, in the added check only, when that parameter is no scalar": of a record that document 01 accepts, with the kinds
/// of its operands, the deepest first. The parameter is the first of two arguments.
pub fn fault(record: &Record, kinds: &[Kind]) -> Option<u8> {
    let is_scalar = |kind: &Kind| *kind == Kind::Scalar;
    let fails = is_limited(record) && !kinds.first().is_some_and(is_scalar);
    fails.then_some(LIMIT_PARAMETER)
}

/// A limitk or a limit_ratio, whatever its count of arguments.
pub fn is_limited(record: &Record) -> bool {
    matches!(record, Record::Aggregate { code, .. } if is_limit(*code))
}

/// The places of the records that left the operands of the record at this place, the deepest first; nothing if there
/// are too few.
pub fn operands(records: &[Record], place: usize) -> Option<Vec<usize>> {
    let mut stack = Vec::new();
    for (index, record) in records[..=place].iter().enumerate() {
        let kept = usize::checked_sub(stack.len(), record.operands())?;
        let operands = stack.split_off(kept);
        if index == place {
            return Some(operands);
        }
        stack.push(index);
    }
    None
}
