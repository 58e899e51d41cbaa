//! Operator records (02, K2): a list of operator records, of which one percent
//! is changed. Records cross as their words, one after the other.

use crate::task::*;

/// What the call leaves: 0 or the refusal, and the list.
#[derive(Clone, Debug, PartialEq, Eq)]
pub struct Changed {
    pub number: Refusal,
    pub operators: Vec<u16>,
}

/// 17, then 24, or that percent changed and no other word.
pub fn set_percent(operators: &[u16], number: u16, percent: u16) -> Changed {
    let mut left = Changed {
        number: 0,
        operators: operators.to_vec(),
    };
    let mut records = left.operators.chunks_exact_mut(OPERATOR_ROW);
    match records.nth(usize::from(number)) {
        None => left.number = 17,
        Some(_) if percent > MOST_PERCENT => left.number = 24,
        Some(record) => record[3] = percent,
    }
    left
}
