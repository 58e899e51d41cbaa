//! Effect conditions that are kept: one for each atom and effect row, for all
//! operators. Building a condition again builds no row, so nothing changes.

use std::ops::Range;

use super::builder::Builder;
use super::compile::Conditions;
use super::Rows;
use crate::builder::Over;
use crate::task::*;

type Built = Result<u16, Over>;

pub struct Kept {
    effects: usize,
    /// By negation, atom and effect: the row + 1, or 0. Most of it is never
    /// touched, and memory that comes as 0 costs nothing until then.
    known: Vec<u16>,
    /// Words of bits for each effect: the atoms that stand below it.
    below: Vec<u64>,
    words: usize,
    /// By effect: what operators with this effect do.
    whole: Vec<Option<Range<usize>>>,
}

/// Set v is atom 2 v, clear v the next.
fn atom(kind: u16, variable: u16) -> usize {
    2 * usize::from(variable) + usize::from(kind == effect::CLEAR)
}

impl Kept {
    pub fn new(rows: &Rows) -> Kept {
        let [v, _, _, e, _, _] = rows.head.words().map(usize::from);
        let words = (2 * v).div_ceil(64);
        Kept {
            effects: e,
            known: vec![0; 2 * 2 * v * e],
            below: atoms_below(rows.effects, words),
            words,
            whole: vec![None; e],
        }
    }

    fn stands_below(&self, number: u16, atom: usize) -> bool {
        self.below[self.words * usize::from(number) + atom / 64] >> (atom % 64) & 1 == 1
    }

    /// An effect's conditions, behind those that stand or among them.
    pub fn conditions(
        &mut self,
        builder: &mut Builder,
        root: u16,
        all: &mut Vec<Conditions>,
    ) -> Result<Range<usize>, Over> {
        if let Some(range) = &self.whole[usize::from(root)] {
            return Ok(range.clone());
        }
        let first = all.len();
        for variable in 0..builder.source.head.variables {
            let set = atom(effect::SET, variable);
            let clear = atom(effect::CLEAR, variable);
            if !self.stands_below(root, set) && !self.stands_below(root, clear) {
                continue;
            }
            let adds = self.condition(builder, set, root, false)?;
            let mut deletes = self.condition(builder, clear, root, false)?;
            if adds != 0 && deletes != 0 {
                let not_set = self.condition(builder, set, root, true)?;
                deletes = builder.join(false, deletes, not_set)?;
            }
            if adds != 0 || deletes != 0 {
                all.push(Conditions {
                    variable,
                    set: adds,
                    clear: deletes,
                });
            }
        }
        self.whole[usize::from(root)] = Some(first..all.len());
        Ok(first..all.len())
    }

    fn condition(
        &mut self,
        builder: &mut Builder,
        atom: usize,
        number: u16,
        negated: bool,
    ) -> Built {
        let never = u16::from(negated);
        if !self.stands_below(number, atom) {
            return Ok(never);
        }
        let side = self.known.len() / 2 * usize::from(negated);
        let place = side + atom * self.effects + usize::from(number);
        if self.known[place] != 0 {
            return Ok(self.known[place] - 1);
        }
        let row = &builder.source.effects[ROW * usize::from(number)..][..ROW];
        let (kind, a, b) = (row[0], row[1], row[2]);
        let row = match kind {
            effect::BOTH => {
                let left = self.condition(builder, atom, a, negated)?;
                let right = self.condition(builder, atom, b, negated)?;
                builder.join(!negated, left, right)?
            }
            effect::UNDER => {
                let inner = self.condition(builder, atom, b, negated)?;
                if inner == never {
                    never
                } else {
                    let condition = builder.image(a, negated)?;
                    builder.join(negated, condition, inner)?
                }
            }
            // the atom itself, since it stands here
            _ => u16::from(!negated),
        };
        self.known[place] = row + 1;
        Ok(row)
    }
}

/// One pass over the table.
fn atoms_below(effects: &[u16], words: usize) -> Vec<u64> {
    let mut below = vec![0; words * (effects.len() / ROW)];
    for (i, row) in effects.chunks_exact(ROW).enumerate() {
        let (done, rest) = below.split_at_mut(words * i);
        let inner = |number: u16| &done[words * usize::from(number)..][..words];
        let (kind, a, b) = (row[0], row[1], row[2]);
        match kind {
            effect::SET | effect::CLEAR => {
                let atom = atom(kind, a);
                rest[atom / 64] |= 1 << (atom % 64);
            }
            effect::BOTH => {
                for (k, word) in rest[..words].iter_mut().enumerate() {
                    *word = inner(a)[k] | inner(b)[k];
                }
            }
            effect::UNDER => rest[..words].copy_from_slice(inner(b)),
            _ => {}
        }
    }
    below
}
