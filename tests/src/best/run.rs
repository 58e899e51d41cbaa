//! Running in place: formulas once bottom-up, effects marked once top-down,
//! then clears, then sets.

use super::Rows;
use crate::semantics::{charge, MOST_STEPS};
use crate::task::*;

/// The answers of a run that is not refused.
#[derive(Clone, Copy, Debug, PartialEq, Eq)]
pub struct Ran {
    pub steps: u32,
    pub cost: u64,
    pub goal: bool,
    pub stop: Option<Refusal>,
}

/// A run that changes the state in place; the scratch ends as 0.
pub fn run(
    rows: &Rows,
    state: &mut [u8],
    sequence: &[u16],
    scratch: &mut [u8],
) -> Result<Ran, Refusal> {
    let answer = checked_run(rows, state, sequence, scratch);
    scratch.fill(0);
    answer
}

fn checked_run(
    rows: &Rows,
    state: &mut [u8],
    sequence: &[u16],
    scratch: &mut [u8],
) -> Result<Ran, Refusal> {
    let rows = rows.checked()?;
    let [v, _, f, e, o, goal] = rows.head.words().map(usize::from);
    if state.len() != v || state.iter().any(|&byte| byte > 1) {
        return Err(16);
    }
    if scratch.len() < f + e {
        return Err(14);
    }
    if sequence.len() > MOST_STEPS {
        return Err(19);
    }
    let (values, rest) = scratch.split_at_mut(f);
    let marks = &mut rest[..e];
    marks.fill(0);
    let (mut steps, mut cost, mut stop) = (0, 0, None);
    evaluate(rows.formulas, state, values);
    for &number in sequence {
        let number = usize::from(number);
        if number >= o {
            stop = Some(17);
            break;
        }
        let operator = &rows.operators[OPERATOR_ROW * number..][..OPERATOR_ROW];
        if values[usize::from(operator[0])] == 0 {
            stop = Some(18);
            break;
        }
        carry_out(rows.effects, usize::from(operator[1]), state, values, marks);
        steps += 1;
        cost += charge(operator[2], operator[3]);
        evaluate(rows.formulas, state, values);
    }
    Ok(Ran {
        steps,
        cost,
        goal: values[goal] == 1,
        stop,
    })
}

/// Every formula's value, lower rows first.
fn evaluate(formulas: &[u16], state: &[u8], values: &mut [u8]) {
    for (i, row) in formulas.chunks_exact(ROW).enumerate() {
        let (a, b) = (usize::from(row[1]), usize::from(row[2]));
        values[i] = match row[0] {
            formula::FALSE => 0,
            formula::TRUE => 1,
            formula::VARIABLE => state[a],
            formula::NOT => 1 - values[a],
            formula::AND => values[a] & values[b],
            formula::OR => values[a] | values[b],
            formula::IMPLIES => (1 - values[a]) | values[b],
            _ => 1 - (values[a] ^ values[b]),
        };
    }
}

/// Marks the effects that act, clears and then sets by them, and takes the
/// marks away.
fn carry_out(effects: &[u16], root: usize, state: &mut [u8], values: &[u8], marks: &mut [u8]) {
    marks[root] = 1;
    for i in (0..=root).rev() {
        if marks[i] == 0 {
            continue;
        }
        let row = &effects[ROW * i..][..ROW];
        let (a, b) = (usize::from(row[1]), usize::from(row[2]));
        match row[0] {
            effect::CLEAR => state[a] = 0,
            effect::BOTH => {
                marks[a] = 1;
                marks[b] = 1;
            }
            effect::UNDER => marks[b] |= values[a],
            _ => {}
        }
    }
    let marked = effects.chunks_exact(ROW).zip(marks.iter_mut());
    for (row, mark) in marked.take(root + 1) {
        if *mark == 1 && row[0] == effect::SET {
            state[usize::from(row[1])] = 1;
        }
        *mark = 0;
    }
}
