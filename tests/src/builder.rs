//! The builder of the new formula table: rows, images, effect conditions.

use std::collections::HashMap;

use crate::atoms::{atoms_below, Atom, AtomSet};
use crate::task::*;

/// The finished task passes a limit.
#[derive(Clone, Copy, Debug, PartialEq, Eq)]
pub struct Over;

type Built = Result<u16, Over>;

const FALSE_ROW: u16 = 0;
const TRUE_ROW: u16 = 1;

/// Rows only grow in number and equal rows are one row, so that building a
/// thing again adds nothing: every answer may be remembered.
pub struct Builder<'a> {
    task: &'a Task,
    rows: Vec<[u16; 3]>,
    found: HashMap<[u16; 3], u16>,
    /// Originals, in the order in which their twins were met.
    twins: Vec<u16>,
    /// For each effect row the atoms below it, a bit each.
    atoms: Vec<AtomSet>,
    remember: bool,
    images: HashMap<(u16, bool), u16>,
    conditions: HashMap<(Atom, u16, bool), u16>,
}

impl<'a> Builder<'a> {
    pub fn new(task: &'a Task) -> Builder<'a> {
        let mut builder = Builder {
            task,
            rows: Vec::new(),
            found: HashMap::new(),
            twins: Vec::new(),
            atoms: atoms_below(task),
            remember: true,
            images: HashMap::new(),
            conditions: HashMap::new(),
        };
        builder.rows.push([formula::FALSE, 0, 0]);
        builder.rows.push([formula::TRUE, 0, 0]);
        for (number, &row) in builder.rows.iter().enumerate() {
            builder.found.insert(row, number as u16);
        }
        builder
    }

    /// A builder that remembers no answers and walks everywhere.
    pub fn forgetful(task: &'a Task) -> Builder<'a> {
        let mut builder = Builder::new(task);
        builder.remember = false;
        builder
    }

    /// The words of the formula table, and the originals of the twins.
    pub fn into_tables(self) -> (Vec<u16>, Vec<u16>) {
        (self.rows.concat(), self.twins)
    }

    /// A row already present is reused; otherwise it is appended.
    fn row(&mut self, row: [u16; 3]) -> Built {
        if let Some(&number) = self.found.get(&row) {
            return Ok(number);
        }
        let number = self.rows.len();
        if number == MOST_FORMULAS {
            return Err(Over);
        }
        self.rows.push(row);
        self.found.insert(row, number as u16);
        Ok(number as u16)
    }

    /// Joins two rows that are built: the four folds, and nothing else.
    pub fn and(&mut self, a: u16, b: u16) -> Built {
        match (a, b) {
            (FALSE_ROW, _) | (_, FALSE_ROW) => Ok(FALSE_ROW),
            (TRUE_ROW, other) | (other, TRUE_ROW) => Ok(other),
            _ => self.row([formula::AND, a, b]),
        }
    }

    pub fn or(&mut self, a: u16, b: u16) -> Built {
        match (a, b) {
            (TRUE_ROW, _) | (_, TRUE_ROW) => Ok(TRUE_ROW),
            (FALSE_ROW, other) | (other, FALSE_ROW) => Ok(other),
            _ => self.row([formula::OR, a, b]),
        }
    }

    /// The twin of a variable if it was met.
    pub fn twin_if_met(&self, variable: u16) -> Option<u16> {
        let place = self.twins.iter().position(|&met| met == variable)?;
        Some(self.task.head.variables + place as u16)
    }

    /// A twin gets the next variable number when first met.
    fn twin(&mut self, variable: u16) -> Built {
        if let Some(twin) = self.twin_if_met(variable) {
            return Ok(twin);
        }
        let number = usize::from(self.task.head.variables) + self.twins.len();
        if number == MOST_VARIABLES {
            return Err(Over);
        }
        self.twins.push(variable);
        Ok(number as u16)
    }

    pub fn image(&mut self, number: u16) -> Built {
        if let Some(&row) = self.images.get(&(number, false)) {
            return Ok(row);
        }
        let [kind, a, b] = self.task.formula(usize::from(number));
        let row = match kind {
            formula::FALSE => FALSE_ROW,
            formula::TRUE => TRUE_ROW,
            formula::VARIABLE => self.row([formula::VARIABLE, a, 0])?,
            formula::NOT => self.negated_image(a)?,
            formula::AND => {
                let (left, right) = (self.image(a)?, self.image(b)?);
                self.and(left, right)?
            }
            formula::OR => {
                let (left, right) = (self.image(a)?, self.image(b)?);
                self.or(left, right)?
            }
            formula::IMPLIES => {
                let (left, right) = (self.negated_image(a)?, self.image(b)?);
                self.or(left, right)?
            }
            _ => self.equivalence(a, b)?,
        };
        self.note_image((number, false), row);
        Ok(row)
    }

    pub fn negated_image(&mut self, number: u16) -> Built {
        if let Some(&row) = self.images.get(&(number, true)) {
            return Ok(row);
        }
        let [kind, a, b] = self.task.formula(usize::from(number));
        let row = match kind {
            formula::FALSE => TRUE_ROW,
            formula::TRUE => FALSE_ROW,
            formula::VARIABLE => {
                let twin = self.twin(a)?;
                self.row([formula::VARIABLE, twin, 0])?
            }
            formula::NOT => self.image(a)?,
            formula::AND => {
                let (left, right) = (self.negated_image(a)?, self.negated_image(b)?);
                self.or(left, right)?
            }
            formula::OR => {
                let (left, right) = (self.negated_image(a)?, self.negated_image(b)?);
                self.and(left, right)?
            }
            formula::IMPLIES => {
                let (left, right) = (self.image(a)?, self.negated_image(b)?);
                self.and(left, right)?
            }
            _ => self.difference(a, b)?,
        };
        self.note_image((number, true), row);
        Ok(row)
    }

    /// (a and b) or (not a and not b)
    fn equivalence(&mut self, a: u16, b: u16) -> Built {
        let (one, other) = (self.image(a)?, self.image(b)?);
        let left = self.and(one, other)?;
        let (one, other) = (self.negated_image(a)?, self.negated_image(b)?);
        let right = self.and(one, other)?;
        self.or(left, right)
    }

    /// (a and not b) or (not a and b)
    fn difference(&mut self, a: u16, b: u16) -> Built {
        let (one, other) = (self.image(a)?, self.negated_image(b)?);
        let left = self.and(one, other)?;
        let (one, other) = (self.negated_image(a)?, self.image(b)?);
        let right = self.and(one, other)?;
        self.or(left, right)
    }

    /// The condition under which an effect triggers an atom.
    pub fn effcond(&mut self, atom: Atom, number: u16) -> Built {
        if let Some(row) = self.known_condition(atom, number, false) {
            return Ok(row);
        }
        let [kind, a, b] = self.task.effect(usize::from(number));
        let row = match kind {
            effect::EMPTY => FALSE_ROW,
            effect::SET | effect::CLEAR if (kind, a) == atom => TRUE_ROW,
            effect::SET | effect::CLEAR => FALSE_ROW,
            effect::BOTH => {
                let (left, right) = (self.effcond(atom, a)?, self.effcond(atom, b)?);
                self.or(left, right)?
            }
            _ => match self.effcond(atom, b)? {
                FALSE_ROW => FALSE_ROW,
                inner => {
                    let condition = self.image(a)?;
                    self.and(condition, inner)?
                }
            },
        };
        self.note_condition((atom, number, false), row);
        Ok(row)
    }

    /// The dual: the condition under which it does not.
    pub fn negated_effcond(&mut self, atom: Atom, number: u16) -> Built {
        if let Some(row) = self.known_condition(atom, number, true) {
            return Ok(row);
        }
        let [kind, a, b] = self.task.effect(usize::from(number));
        let row = match kind {
            effect::EMPTY => TRUE_ROW,
            effect::SET | effect::CLEAR if (kind, a) == atom => FALSE_ROW,
            effect::SET | effect::CLEAR => TRUE_ROW,
            effect::BOTH => {
                let left = self.negated_effcond(atom, a)?;
                let right = self.negated_effcond(atom, b)?;
                self.and(left, right)?
            }
            _ => match self.negated_effcond(atom, b)? {
                TRUE_ROW => TRUE_ROW,
                inner => {
                    let condition = self.negated_image(a)?;
                    self.or(condition, inner)?
                }
            },
        };
        self.note_condition((atom, number, true), row);
        Ok(row)
    }

    /// A condition built before; or false (negated: true), with nothing
    /// built, if the atom does not stand below this effect.
    fn known_condition(&self, atom: Atom, number: u16, negated: bool) -> Option<u16> {
        if self.remember && !self.atoms[usize::from(number)].holds(atom) {
            return Some(if negated { TRUE_ROW } else { FALSE_ROW });
        }
        self.conditions.get(&(atom, number, negated)).copied()
    }

    fn note_image(&mut self, key: (u16, bool), row: u16) {
        if self.remember {
            self.images.insert(key, row);
        }
    }

    fn note_condition(&mut self, key: (Atom, u16, bool), row: u16) {
        if self.remember {
            self.conditions.insert(key, row);
        }
    }
}
