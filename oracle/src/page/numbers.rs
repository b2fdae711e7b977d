//! The numbers of kind 0 and of fills that a record holds, with what each is there.

use super::record::*;

impl Record<'_> {
    pub fn numbers(&self) -> Vec<(Holder, Number)> {
        let fills = match self {
            Record::Number(number) => return vec![(Holder::Record, *number)],
            Record::Binary {
                modifier: Some(modifier),
                ..
            } => [modifier.left_fill, modifier.right_fill],
            _ => [None; 2],
        };
        let fills = [Holder::LeftFill, Holder::RightFill].into_iter().zip(fills);
        fills
            .filter_map(|(holder, fill)| Some((holder, fill?)))
            .collect()
    }
}
