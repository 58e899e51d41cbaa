//! Tasks whose rows are as deep as the limits allow, in formulas and in
//! effects at once.

use crate::draft::Draft;
use crate::task::*;

/// A row that names the one below it.
pub type RowOver = fn(u16) -> [u16; 3];

/// Formula rows over rows 0 to 2, which are v0, true, false: what the row
/// below is joined with folds away.
pub const FORMULAS: [(&str, RowOver); 10] = [
    ("not", |below| [formula::NOT, below, 0]),
    ("and, left", |below| [formula::AND, below, 1]),
    ("and, right", |below| [formula::AND, 1, below]),
    ("and, growing", |below| [formula::AND, below, 0]),
    ("or, left", |below| [formula::OR, below, 2]),
    ("or, right", |below| [formula::OR, 2, below]),
    ("implies, left", |below| [formula::IMPLIES, below, 2]),
    ("implies, right", |below| [formula::IMPLIES, 1, below]),
    ("equivalent, left", |below| [formula::EQUIVALENT, below, 1]),
    ("equivalent, right", |below| [formula::EQUIVALENT, 1, below]),
];

/// Effect rows over row 0, which is empty.
pub const EFFECTS: [(&str, RowOver); 3] = [
    ("both, left", |below| [effect::BOTH, below, 0]),
    ("both, right", |below| [effect::BOTH, 0, below]),
    ("under", |below| [effect::UNDER, 1, below]),
];

/// Every formula and effect row is reached; the topmost formula stands at
/// the bottom of the effects, beside a clear of what it sets.
pub fn deep_task(formula_row: RowOver, effect_row: RowOver) -> Task {
    let mut draft = Draft::new(&[0, 0]);
    let (mut top, yes) = (draft.variable(0), draft.yes());
    draft.formula(formula::FALSE, 0, 0);
    for _ in 3..MOST_FORMULAS {
        let [kind, a, b] = formula_row(top);
        top = draft.formula(kind, a, b);
    }
    draft.effect(effect::EMPTY, 0, 0);
    let (set, clear) = (draft.set(1), draft.clear(1));
    let set = draft.under(top, set);
    let mut whole = draft.all(&[set, clear]);
    for _ in 5..MOST_EFFECTS {
        let [kind, a, b] = effect_row(whole);
        whole = draft.effect(kind, a, b);
    }
    draft.operator(yes, whole, 1);
    draft.finish(yes)
}
