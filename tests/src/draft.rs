//! Writes down a task row by row, for worked examples.

use crate::task::*;

/// A task in the making; each call appends a row and gives its number.
pub struct Draft {
    task: Task,
}

impl Draft {
    pub fn new(initial: &[u8]) -> Draft {
        let mut task = Task::default();
        task.head.variables = initial.len() as u16;
        task.tables.initial = initial.to_vec();
        Draft { task }
    }

    pub fn formula(&mut self, kind: u16, a: u16, b: u16) -> u16 {
        self.task.tables.formulas.extend([kind, a, b]);
        self.task.head.formula_count += 1;
        self.task.head.formula_count - 1
    }

    pub fn yes(&mut self) -> u16 {
        self.formula(formula::TRUE, 0, 0)
    }

    pub fn variable(&mut self, variable: u16) -> u16 {
        self.formula(formula::VARIABLE, variable, 0)
    }

    pub fn not(&mut self, a: u16) -> u16 {
        self.formula(formula::NOT, a, 0)
    }

    pub fn and(&mut self, a: u16, b: u16) -> u16 {
        self.formula(formula::AND, a, b)
    }

    pub fn equivalent(&mut self, a: u16, b: u16) -> u16 {
        self.formula(formula::EQUIVALENT, a, b)
    }

    pub fn effect(&mut self, kind: u16, a: u16, b: u16) -> u16 {
        self.task.tables.effects.extend([kind, a, b]);
        self.task.head.effect_count += 1;
        self.task.head.effect_count - 1
    }

    pub fn set(&mut self, variable: u16) -> u16 {
        self.effect(effect::SET, variable, 0)
    }

    pub fn clear(&mut self, variable: u16) -> u16 {
        self.effect(effect::CLEAR, variable, 0)
    }

    /// All of these effects, joined from the left.
    pub fn all(&mut self, effects: &[u16]) -> u16 {
        let (&first, rest) = effects.split_first().expect("at least one effect");
        rest.iter()
            .fold(first, |whole, &next| self.effect(effect::BOTH, whole, next))
    }

    pub fn under(&mut self, condition: u16, inner: u16) -> u16 {
        self.effect(effect::UNDER, condition, inner)
    }

    /// An operator that charges its cost.
    pub fn operator(&mut self, precondition: u16, effect: u16, cost: u16) -> u16 {
        self.operator_row(full_price(precondition, effect, cost))
    }

    pub fn operator_row(&mut self, row: [u16; OPERATOR_ROW]) -> u16 {
        self.task.tables.operators.extend(row);
        self.task.head.operator_count += 1;
        self.task.head.operator_count - 1
    }

    pub fn finish(mut self, goal: u16) -> Task {
        self.task.head.goal = goal;
        self.task
    }
}
