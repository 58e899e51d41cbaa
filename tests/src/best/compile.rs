//! Compiling straight into lent tables.

use std::ops::Range;

use super::builder::Builder;
use super::kept::Kept;
use super::{Room, Rows};
use crate::builder::Over;
use crate::task::*;

/// How effect conditions are found: neither form is the quicker on all tasks.
#[derive(Clone, Copy, Debug, PartialEq, Eq)]
pub enum Form {
    /// A walk for each operator and atom, with a memo that is cleared.
    Cleared,
    /// With as much memory as it likes: each condition once for all operators.
    Kept,
}

pub const FORMS: [Form; 2] = [Form::Cleared, Form::Kept];

/// The new head, or the refusal; then all lent tables are 0. Scratch ends as
/// 0 and is measured, but not used.
pub fn compile(
    form: Form,
    rows: &Rows,
    mut room: Room,
    scratch: &mut [u16],
) -> Result<Head, Refusal> {
    room.clear();
    scratch.fill(0);
    let rows = rows.checked()?;
    let [_, w, f, e, _, _] = rows.head.words().map(usize::from);
    if w > 0 {
        return Err(13);
    }
    if scratch.len() < 2 * (f + e) {
        return Err(14);
    }
    let answer = fill(form, &rows, &mut room);
    if answer.is_err() {
        room.clear();
    }
    answer.map_err(|Over| 15)
}

/// The conditions under which an operator sets and clears a variable.
pub struct Conditions {
    pub variable: u16,
    pub set: u16,
    pub clear: u16,
}

/// What stands between two operators, by form.
enum Walks {
    Cleared(Touched),
    Kept(Kept),
}

impl Walks {
    fn new(form: Form, rows: &Rows) -> Walks {
        match form {
            Form::Cleared => Walks::Cleared(Touched::new(rows)),
            Form::Kept => Walks::Kept(Kept::new(rows)),
        }
    }

    /// An effect's conditions, behind those that stand or among them.
    fn conditions(
        &mut self,
        builder: &mut Builder,
        root: u16,
        all: &mut Vec<Conditions>,
    ) -> Result<Range<usize>, Over> {
        match self {
            Walks::Kept(kept) => kept.conditions(builder, root, all),
            Walks::Cleared(touched) => {
                let first = all.len();
                for variable in touched.variables(&builder.source, root) {
                    all.extend(conditions(builder, variable, root)?);
                }
                Ok(first..all.len())
            }
        }
    }
}

fn fill(form: Form, rows: &Rows, room: &mut Room) -> Result<Head, Over> {
    let mut builder = Builder::new(*rows);
    let mut walks = Walks::new(form, rows);
    let mut all = Vec::new();
    let mut operators = Vec::new();
    for row in rows.operators.chunks_exact(OPERATOR_ROW) {
        let precondition = builder.image(row[0], false)?;
        let range = walks.conditions(&mut builder, row[1], &mut all)?;
        operators.push((precondition, range, [row[2], row[3]]));
    }
    let goal = builder.image(rows.head.goal, false)?;
    let mut effects = Effects::new(room.effects)?;
    let table = room.operators.chunks_exact_mut(OPERATOR_ROW);
    if table.len() < operators.len() {
        return Err(Over);
    }
    for (row, (precondition, range, [cost, percent])) in table.zip(operators) {
        let root = effects.write_rules(&builder, &all[range])?;
        row.copy_from_slice(&[precondition, root, cost, percent]);
    }
    let effect_count = effects.count as u16;
    finish(rows, &builder, room, effect_count, goal)
}

fn conditions(builder: &mut Builder, variable: u16, root: u16) -> Result<Option<Conditions>, Over> {
    let set = builder.condition((effect::SET, variable), root, false)?;
    let mut clear = builder.condition((effect::CLEAR, variable), root, false)?;
    if set != 0 && clear != 0 {
        let not_set = builder.condition((effect::SET, variable), root, true)?;
        clear = builder.join(false, clear, not_set)?;
    }
    let some = set != 0 || clear != 0;
    Ok(some.then_some(Conditions {
        variable,
        set,
        clear,
    }))
}

/// Finds the variables that an effect sets or clears at all.
struct Touched {
    marks: Vec<bool>,
}

impl Touched {
    fn new(rows: &Rows) -> Touched {
        Touched {
            marks: vec![false; usize::from(rows.head.effect_count)],
        }
    }

    /// These variables upwards; one walk down the table.
    fn variables(&mut self, rows: &Rows, root: u16) -> Vec<u16> {
        let mut found = Vec::new();
        self.marks[usize::from(root)] = true;
        for i in (0..=usize::from(root)).rev() {
            if !std::mem::take(&mut self.marks[i]) {
                continue;
            }
            let row = &rows.effects[ROW * i..][..ROW];
            match row[0] {
                effect::SET | effect::CLEAR => found.push(row[1]),
                effect::BOTH => {
                    self.marks[usize::from(row[1])] = true;
                    self.marks[usize::from(row[2])] = true;
                }
                effect::UNDER => self.marks[usize::from(row[2])] = true,
                _ => {}
            }
        }
        found.sort_unstable();
        found.dedup();
        found
    }
}

/// The new effect table, in the lent one.
struct Effects<'a> {
    table: &'a mut [u16],
    count: usize,
}

impl Effects<'_> {
    fn new(table: &mut [u16]) -> Result<Effects<'_>, Over> {
        let mut effects = Effects { table, count: 0 };
        effects.append([effect::EMPTY, 0, 0])?;
        Ok(effects)
    }

    fn append(&mut self, row: [u16; 3]) -> Result<u16, Over> {
        let number = self.count;
        let room = self.table.get_mut(ROW * number..ROW * number + ROW);
        if number == MOST_EFFECTS {
            return Err(Over);
        }
        room.ok_or(Over)?.copy_from_slice(&row);
        self.count += 1;
        Ok(number as u16)
    }

    fn write_rules(&mut self, builder: &Builder, all: &[Conditions]) -> Result<u16, Over> {
        let mut whole = None;
        for conditions in all {
            let variable = Some(conditions.variable);
            let twin = builder.twin_if_met(conditions.variable);
            for (kind, variable, condition) in [
                (effect::SET, variable, conditions.set),
                (effect::CLEAR, twin, conditions.set),
                (effect::CLEAR, variable, conditions.clear),
                (effect::SET, twin, conditions.clear),
            ] {
                let Some(variable) = variable.filter(|_| condition != 0) else {
                    continue;
                };
                let atom = self.append([kind, variable, 0])?;
                let rule = self.append([effect::UNDER, condition, atom])?;
                whole = Some(match whole {
                    None => rule,
                    Some(before) => self.append([effect::BOTH, before, rule])?,
                });
            }
        }
        Ok(whole.unwrap_or(0))
    }
}

/// Initial values, twins and formulas into their tables.
fn finish(
    rows: &Rows,
    builder: &Builder,
    room: &mut Room,
    effect_count: u16,
    goal: u16,
) -> Result<Head, Over> {
    let originals = usize::from(rows.head.variables);
    let head = Head {
        variables: (originals + builder.twins.len()) as u16,
        twin_count: builder.twins.len() as u16,
        formula_count: builder.rows.len() as u16,
        effect_count,
        operator_count: rows.head.operator_count,
        goal,
    };
    let needs = head.needs();
    if !room.lengths().cover(&needs) {
        return Err(Over);
    }
    room.initial[..originals].copy_from_slice(rows.initial);
    for (value, &original) in room.initial[originals..].iter_mut().zip(&builder.twins) {
        *value = 1 - rows.initial[usize::from(original)];
    }
    room.twins[..builder.twins.len()].copy_from_slice(&builder.twins);
    let formulas = room.formulas.chunks_exact_mut(ROW);
    for (row, built) in formulas.zip(&builder.rows) {
        row.copy_from_slice(built);
    }
    Ok(head)
}
