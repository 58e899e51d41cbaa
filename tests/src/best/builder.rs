//! The builder with memos in arrays and a hash table of its own for rows.

use super::Rows;
use crate::atoms::Atom;
use crate::builder::Over;
use crate::task::*;

type Built = Result<u16, Over>;

const FALSE_ROW: u16 = 0;
const TRUE_ROW: u16 = 1;
const NONE: u16 = u16::MAX;
const SLOTS: usize = 4 * MOST_FORMULAS;

/// Two memos, for what is plain and for what is negated.
type Memo = [Vec<u16>; 2];

pub struct Builder<'a> {
    pub source: Rows<'a>,
    pub rows: Vec<[u16; 3]>,
    slots: Vec<u16>,
    pub twins: Vec<u16>,
    /// The twin of each source variable, or none.
    twin_of: Vec<u16>,
    images: Memo,
    conditions: Memo,
    /// The conditions that were noted for the present atom.
    noted: Vec<u16>,
}

impl<'a> Builder<'a> {
    pub fn new(source: Rows<'a>) -> Builder<'a> {
        let [v, _, f, e, _, _] = source.head.words().map(usize::from);
        let mut builder = Builder {
            source,
            rows: Vec::with_capacity(MOST_FORMULAS),
            slots: vec![NONE; SLOTS],
            twins: Vec::new(),
            twin_of: vec![NONE; v],
            images: [vec![NONE; f], vec![NONE; f]],
            conditions: [vec![NONE; e], vec![NONE; e]],
            noted: Vec::new(),
        };
        for row in [[formula::FALSE, 0, 0], [formula::TRUE, 0, 0]] {
            builder.row(row).expect("room for two rows");
        }
        builder
    }

    fn row(&mut self, row: [u16; 3]) -> Built {
        let [kind, a, b] = row.map(u64::from);
        let key = kind << 32 | a << 16 | b;
        let mut slot = (key.wrapping_mul(0x9e37_79b9_7f4a_7c15) >> 40) as usize % SLOTS;
        while self.slots[slot] != NONE {
            if self.rows[usize::from(self.slots[slot])] == row {
                return Ok(self.slots[slot]);
            }
            slot = (slot + 1) % SLOTS;
        }
        if self.rows.len() == MOST_FORMULAS {
            return Err(Over);
        }
        let number = self.rows.len() as u16;
        self.slots[slot] = number;
        self.rows.push(row);
        Ok(number)
    }

    /// "and" if plain, "or" if negated; the constants change places too.
    pub fn join(&mut self, negated: bool, a: u16, b: u16) -> Built {
        let (absorbing, neutral) = match negated {
            false => (FALSE_ROW, TRUE_ROW),
            true => (TRUE_ROW, FALSE_ROW),
        };
        if a == absorbing || b == absorbing {
            return Ok(absorbing);
        }
        if a == neutral {
            return Ok(b);
        }
        if b == neutral {
            return Ok(a);
        }
        let kind = if negated { formula::OR } else { formula::AND };
        self.row([kind, a, b])
    }

    pub fn twin_if_met(&self, variable: u16) -> Option<u16> {
        let twin = self.twin_of[usize::from(variable)];
        (twin != NONE).then_some(twin)
    }

    fn twin(&mut self, variable: u16) -> Built {
        if let Some(twin) = self.twin_if_met(variable) {
            return Ok(twin);
        }
        let number = self.twin_of.len() + self.twins.len();
        if number == MOST_VARIABLES {
            return Err(Over);
        }
        self.twins.push(variable);
        self.twin_of[usize::from(variable)] = number as u16;
        Ok(number as u16)
    }

    /// The image, or the negated image.
    pub fn image(&mut self, number: u16, negated: bool) -> Built {
        let known = self.images[usize::from(negated)][usize::from(number)];
        if known != NONE {
            return Ok(known);
        }
        let row = &self.source.formulas[ROW * usize::from(number)..][..ROW];
        let (kind, a, b) = (row[0], row[1], row[2]);
        let row = match kind {
            formula::FALSE => u16::from(negated),
            formula::TRUE => u16::from(!negated),
            formula::VARIABLE => {
                let variable = if negated { self.twin(a)? } else { a };
                self.row([formula::VARIABLE, variable, 0])?
            }
            formula::NOT => self.image(a, !negated)?,
            formula::AND => self.pair(negated, (a, negated), (b, negated))?,
            formula::OR => self.pair(!negated, (a, negated), (b, negated))?,
            formula::IMPLIES => self.pair(!negated, (a, !negated), (b, negated))?,
            _ => {
                let left = self.pair(false, (a, false), (b, negated))?;
                let right = self.pair(false, (a, true), (b, !negated))?;
                self.join(true, left, right)?
            }
        };
        self.images[usize::from(negated)][usize::from(number)] = row;
        Ok(row)
    }

    fn pair(&mut self, or: bool, left: (u16, bool), right: (u16, bool)) -> Built {
        let left = self.image(left.0, left.1)?;
        let right = self.image(right.0, right.1)?;
        self.join(or, left, right)
    }

    /// The effect condition of an atom, or its dual.
    pub fn condition(&mut self, atom: Atom, root: u16, negated: bool) -> Built {
        let row = self.inner_condition(atom, root, negated);
        let memo = &mut self.conditions[usize::from(negated)];
        for number in self.noted.drain(..) {
            memo[usize::from(number)] = NONE;
        }
        row
    }

    fn inner_condition(&mut self, atom: Atom, number: u16, negated: bool) -> Built {
        let known = self.conditions[usize::from(negated)][usize::from(number)];
        if known != NONE {
            return Ok(known);
        }
        let row = &self.source.effects[ROW * usize::from(number)..][..ROW];
        let (kind, a, b) = (row[0], row[1], row[2]);
        let never = u16::from(negated);
        let row = match kind {
            effect::SET | effect::CLEAR if (kind, a) == atom => u16::from(!negated),
            effect::BOTH => {
                let left = self.inner_condition(atom, a, negated)?;
                let right = self.inner_condition(atom, b, negated)?;
                self.join(!negated, left, right)?
            }
            effect::UNDER => {
                let inner = self.inner_condition(atom, b, negated)?;
                if inner == never {
                    never
                } else {
                    let condition = self.image(a, negated)?;
                    self.join(negated, condition, inner)?
                }
            }
            _ => never,
        };
        self.conditions[usize::from(negated)][usize::from(number)] = row;
        self.noted.push(number);
        Ok(row)
    }
}
