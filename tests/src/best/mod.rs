//! The other implementation in its quickest form, over lent buffers and
//! without copies: what the library's times are compared with. The program
//! `reference` holds each to its plain form.

pub mod builder;
pub mod cheapest;
pub mod compile;
pub mod kept;
pub mod print;
pub mod read;
pub mod rules;
pub mod run;
pub mod write;

use crate::check;
use crate::task::*;

/// Lent tables to read.
#[derive(Clone, Copy)]
pub struct Rows<'a> {
    pub head: Head,
    pub initial: &'a [u8],
    pub twins: &'a [u16],
    pub formulas: &'a [u16],
    pub effects: &'a [u16],
    pub operators: &'a [u16],
}

impl<'a> Rows<'a> {
    pub fn of(task: &'a Task) -> Rows<'a> {
        Rows {
            head: task.head,
            initial: &task.tables.initial,
            twins: &task.tables.twins,
            formulas: &task.tables.formulas,
            effects: &task.tables.effects,
            operators: &task.tables.operators,
        }
    }

    /// The tables' own numbers; cuts each table to its count.
    pub fn checked(&self) -> Result<Rows<'a>, Refusal> {
        let head = self.head;
        check::check_head(&head)?;
        let lent = Lengths {
            initial: self.initial.len(),
            twins: self.twins.len(),
            formulas: self.formulas.len(),
            effects: self.effects.len(),
            operators: self.operators.len(),
        };
        check::check_lengths(&head, &lent)?;
        let needs = head.needs();
        let rows = Rows {
            head,
            initial: &self.initial[..needs.initial],
            twins: &self.twins[..needs.twins],
            formulas: &self.formulas[..needs.formulas],
            effects: &self.effects[..needs.effects],
            operators: &self.operators[..needs.operators],
        };
        rules::check_rows(&rows)?;
        Ok(rows)
    }
}

/// Lent tables to fill.
pub struct Room<'a> {
    pub initial: &'a mut [u8],
    pub twins: &'a mut [u16],
    pub formulas: &'a mut [u16],
    pub effects: &'a mut [u16],
    pub operators: &'a mut [u16],
}

impl<'a> Room<'a> {
    pub fn of(tables: &'a mut Tables) -> Room<'a> {
        Room {
            initial: &mut tables.initial,
            twins: &mut tables.twins,
            formulas: &mut tables.formulas,
            effects: &mut tables.effects,
            operators: &mut tables.operators,
        }
    }

    pub fn lengths(&self) -> Lengths {
        Lengths {
            initial: self.initial.len(),
            twins: self.twins.len(),
            formulas: self.formulas.len(),
            effects: self.effects.len(),
            operators: self.operators.len(),
        }
    }

    pub fn clear(&mut self) {
        self.initial.fill(0);
        self.twins.fill(0);
        self.formulas.fill(0);
        self.effects.fill(0);
        self.operators.fill(0);
    }
}
