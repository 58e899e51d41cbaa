//! The rules of rows, by comparisons alone.

use super::Rows;
use crate::task::*;

/// Originals named so far, a bit each.
#[derive(Default)]
pub struct Named {
    bits: [u64; MOST_VARIABLES / 64],
}

impl Named {
    /// Whether this is below `end` and was not named before.
    pub fn first(&mut self, original: u16, end: usize) -> bool {
        let at = usize::from(original);
        if at >= end {
            return false;
        }
        let (word, bit) = (at / 64, 1 << (at % 64));
        let fresh = self.bits[word] & bit == 0;
        self.bits[word] |= bit;
        fresh
    }
}

pub fn check_rows(rows: &Rows) -> Result<(), Refusal> {
    let [v, w, f, e, _, _] = rows.head.words().map(usize::from);
    if rows.initial.iter().any(|&byte| byte > 1) {
        return Err(8);
    }
    let mut named = Named::default();
    if !rows
        .twins
        .iter()
        .all(|&original| named.first(original, v - w))
    {
        return Err(9);
    }
    let mut formulas = rows.formulas.chunks_exact(ROW).enumerate();
    if !formulas.all(|(i, row)| formula_kept(v, i, row[0], row[1], row[2])) {
        return Err(10);
    }
    let mut effects = rows.effects.chunks_exact(ROW).enumerate();
    if !effects.all(|(i, row)| effect_kept(v, f, i, row[0], row[1], row[2])) {
        return Err(11);
    }
    for row in rows.operators.chunks_exact(OPERATOR_ROW) {
        operator_kept(f, e, row)?;
    }
    Ok(())
}

#[inline]
pub fn operator_kept(f: usize, e: usize, row: &[u16]) -> Result<(), Refusal> {
    if usize::from(row[0]) >= f || usize::from(row[1]) >= e {
        return Err(12);
    }
    if row[3] > MOST_PERCENT {
        return Err(24);
    }
    Ok(())
}

#[inline]
pub fn formula_kept(v: usize, i: usize, kind: u16, a: u16, b: u16) -> bool {
    let (first, second) = (usize::from(a), usize::from(b));
    match kind {
        formula::FALSE | formula::TRUE => a == 0 && b == 0,
        formula::VARIABLE => first < v && b == 0,
        formula::NOT => first < i && b == 0,
        formula::AND..=formula::EQUIVALENT => first < i && second < i,
        _ => false,
    }
}

#[inline]
pub fn effect_kept(v: usize, f: usize, i: usize, kind: u16, a: u16, b: u16) -> bool {
    let (first, second) = (usize::from(a), usize::from(b));
    match kind {
        effect::EMPTY => a == 0 && b == 0,
        effect::SET | effect::CLEAR => first < v && b == 0,
        effect::BOTH => first < i && second < i,
        effect::UNDER => first < f && second < i,
        _ => false,
    }
}
