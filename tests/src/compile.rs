//! Compiling to positive normal form (01, "Building the compiled task").

use crate::builder::{Builder, Over};
use crate::check::check;
use crate::task::*;

/// What compiling leaves: 0 or the refusal, all lent tables and the scratch.
#[derive(Clone, Debug, PartialEq, Eq)]
pub struct Compiled {
    pub number: Refusal,
    pub head: Head,
    pub tables: Tables,
    pub scratch: Vec<u16>,
}

/// Compiles into lent tables, with a lent scratch of so many words.
pub fn compile(task: &Task, lent: &Lengths, scratch_length: usize) -> Compiled {
    let scratch = vec![0; scratch_length];
    match compile_checked(task, lent, scratch_length) {
        Ok(finished) => Compiled {
            number: 0,
            head: finished.head,
            tables: finished.tables.resized(lent),
            scratch,
        },
        Err(number) => Compiled {
            number,
            head: Head::default(),
            tables: Tables::zeros(lent),
            scratch,
        },
    }
}

/// The tables' numbers, then 13, 14, 15.
fn compile_checked(task: &Task, lent: &Lengths, scratch_length: usize) -> Result<Task, Refusal> {
    check(&task.head, &task.tables)?;
    if task.head.twin_count > 0 {
        return Err(13);
    }
    let rows = usize::from(task.head.formula_count) + usize::from(task.head.effect_count);
    if scratch_length < 2 * rows {
        return Err(14);
    }
    let finished = finished_task(task).map_err(|Over| 15u16)?;
    if !lent.cover(&finished.head.needs()) {
        return Err(15);
    }
    Ok(finished)
}

/// The finished task, whatever is lent; the source passes the check and
/// has no twins.
pub fn finished_task(task: &Task) -> Result<Task, Over> {
    finish(task, Builder::new(task))
}

/// The same, built anew at every mention of a row: slow, for small tasks.
pub fn finished_task_slowly(task: &Task) -> Result<Task, Over> {
    finish(task, Builder::forgetful(task))
}

/// The conditions under which an operator sets and clears a variable.
struct Conditions {
    variable: u16,
    set: u16,
    clear: u16,
}

fn finish(task: &Task, mut builder: Builder) -> Result<Task, Over> {
    let mut preconditions = Vec::new();
    let mut conditions = Vec::new();
    for i in 0..usize::from(task.head.operator_count) {
        let [precondition, root, ..] = task.operator(i);
        preconditions.push(builder.image(precondition)?);
        conditions.push(operator_conditions(task, &mut builder, root)?);
    }
    let goal = builder.image(task.head.goal)?;
    let mut effects = Effects::new();
    let mut operators = Vec::new();
    for (i, &precondition) in preconditions.iter().enumerate() {
        let root = effects.write_rules(&builder, &conditions[i])?;
        let [_, _, cost, percent] = task.operator(i);
        operators.extend([precondition, root, cost, percent]);
    }
    Ok(assemble(task, builder, effects, operators, goal))
}

/// A, D and, where both are not row 0, N, for each variable upwards.
/// Variables that the effect does not touch have row 0 for both.
fn operator_conditions(
    task: &Task,
    builder: &mut Builder,
    root: u16,
) -> Result<Vec<Conditions>, Over> {
    let mut all = Vec::new();
    for variable in 0..task.head.variables {
        let set = builder.effcond((effect::SET, variable), root)?;
        let mut clear = builder.effcond((effect::CLEAR, variable), root)?;
        if set != 0 && clear != 0 {
            let not_set = builder.negated_effcond((effect::SET, variable), root)?;
            clear = builder.and(clear, not_set)?;
        }
        if set != 0 || clear != 0 {
            all.push(Conditions {
                variable,
                set,
                clear,
            });
        }
    }
    Ok(all)
}

/// The new effect table; row 0 is empty.
struct Effects {
    table: Vec<u16>,
}

impl Effects {
    fn new() -> Effects {
        Effects {
            table: vec![effect::EMPTY, 0, 0],
        }
    }

    /// Effect rows are always appended, never reused.
    fn append(&mut self, row: [u16; 3]) -> Result<u16, Over> {
        let number = self.table.len() / ROW;
        if number == MOST_EFFECTS {
            return Err(Over);
        }
        self.table.extend(row);
        Ok(number as u16)
    }

    /// The rules of one operator; the row of its whole effect.
    fn write_rules(&mut self, builder: &Builder, all: &[Conditions]) -> Result<u16, Over> {
        let mut whole = None;
        for conditions in all {
            let variable = Some(conditions.variable);
            let twin = builder.twin_if_met(conditions.variable);
            let rules = [
                (effect::SET, variable, conditions.set),
                (effect::CLEAR, twin, conditions.set),
                (effect::CLEAR, variable, conditions.clear),
                (effect::SET, twin, conditions.clear),
            ];
            for (kind, variable, condition) in rules {
                let Some(variable) = variable.filter(|_| condition != 0) else {
                    continue;
                };
                let atom = self.append([kind, variable, 0])?;
                let rule = self.append([effect::UNDER, condition, atom])?;
                whole = Some(match whole {
                    None => rule,
                    Some(before) => self.append([effect::BOTH, before, rule])?,
                });
            }
        }
        Ok(whole.unwrap_or(0))
    }
}

fn assemble(
    task: &Task,
    builder: Builder,
    effects: Effects,
    operators: Vec<u16>,
    goal: u16,
) -> Task {
    let (formulas, twins) = builder.into_tables();
    let mut initial = task.tables.initial[..usize::from(task.head.variables)].to_vec();
    for &original in &twins {
        initial.push(1 - initial[usize::from(original)]);
    }
    let head = Head {
        variables: initial.len() as u16,
        twin_count: twins.len() as u16,
        formula_count: (formulas.len() / ROW) as u16,
        effect_count: (effects.table.len() / ROW) as u16,
        operator_count: task.head.operator_count,
        goal,
    };
    let tables = Tables {
        initial,
        twins,
        formulas,
        effects: effects.table,
        operators,
    };
    Task { head, tables }
}
