//! Rows that stand below one head of the library's index. The hash is the
//! library's (crates/formula_builder/src/index.rt): if it changes, these
//! tasks are as good as random ones.

use saqwillo_tests::draft::Draft;
use saqwillo_tests::task::*;

use super::families::{atoms, Size};

fn head(kind: u16, a: u16, b: u16) -> u64 {
    let [kind, a, b] = [kind, a, b].map(u64::from);
    let key = (kind * 4096 + b) * 4096 + a;
    key * 2_654_435_769 % (1 << 32) * 4096 >> 32
}

/// The head below which most rows stand.
const WANTED: u64 = 1234;

/// A join of the row before with one from `first` on, below the wanted
/// head and not among those that stand; else any that does not stand.
fn next_row(rows: &[[u16; 3]], first: u16) -> [u16; 3] {
    let last = rows.len() as u16 - 1;
    let joins = |x: u16| {
        [
            [formula::AND, x, last],
            [formula::OR, last, x],
            [formula::OR, x, last],
        ]
    };
    // the row before is new, so no row with it stands
    let mut all = (first..=last).rev().flat_map(joins);
    let wanted = all.find(|&[kind, a, b]| head(kind, a, b) == WANTED);
    wanted.unwrap_or([formula::AND, first, last])
}

/// So many rows, each of which is built from the one before: false, true,
/// the variables, then joins. The compiled table has the same rows.
fn rows(variables: usize, count: usize) -> Vec<[u16; 3]> {
    let mut rows = vec![[formula::FALSE, 0, 0], [formula::TRUE, 0, 0]];
    rows.extend((0..variables).map(|v| [formula::VARIABLE, v as u16, 0]));
    while rows.len() < count {
        let row = next_row(&rows, 2);
        rows.push(row);
    }
    rows
}

/// Few variables, so that most rows are joins.
const GROUND: usize = 2;

/// All rows are built once, for the goal.
pub fn formulas(size: &Size) -> Task {
    let mut draft = Draft::new(&vec![0; size.variables]);
    let mut goal = 0;
    for [kind, a, b] in rows(GROUND.min(size.variables), size.formulas) {
        goal = draft.formula(kind, a, b);
    }
    draft.finish(goal)
}

/// Every operator's precondition builds all rows; then the effect's
/// condition finds those of its front again, for each atom, and folds.
pub fn conditions(size: &Size) -> Task {
    let mut draft = Draft::new(&vec![0; size.variables]);
    let table = rows(GROUND.min(size.variables), size.formulas);
    let mut top = 0;
    for &[kind, a, b] in &table {
        top = draft.formula(kind, a, b);
    }
    let all = atoms(&mut draft, size, size.effects / 4);
    let bottom = draft.all(&all);
    // of row k from 2 on: the effect whose condition is row k
    let mut effects: Vec<u16> = Vec::new();
    for (k, &[kind, a, b]) in table.iter().enumerate().skip(2) {
        let last = effects.last().copied().unwrap_or(bottom);
        if usize::from(last) + 2 >= size.effects {
            break;
        }
        let place = |row: u16| effects[usize::from(row) - 2];
        let next = match kind {
            formula::VARIABLE => draft.under(k as u16, bottom),
            formula::AND => draft.under(a, place(b)),
            _ => draft.effect(effect::BOTH, place(a), place(b)),
        };
        effects.push(next);
    }
    let last = *effects.last().expect("room for a row");
    let root = draft.under(0, last);
    for i in 0..size.operators {
        draft.operator(top, root, i as u16);
    }
    draft.finish(1)
}
