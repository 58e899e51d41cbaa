//! Tasks made by hand to be slow to compile, by their counts.

use saqwillo_tests::draft::Draft;
use saqwillo_tests::task::*;

use super::{alike, nets};

/// The counts that a family may use up.
#[derive(Clone, Copy, Debug)]
pub struct Size {
    pub variables: usize,
    pub formulas: usize,
    pub effects: usize,
    pub operators: usize,
}

pub const LIMITS: Size = Size {
    variables: MOST_VARIABLES,
    formulas: MOST_FORMULAS,
    effects: MOST_EFFECTS,
    operators: MOST_OPERATORS,
};

pub struct Family {
    pub name: &'static str,
    pub make: fn(&Size) -> Task,
}

pub const FAMILIES: [Family; 13] = [
    Family {
        name: "one tree, all set and cleared, same row",
        make: one_tree,
    },
    Family {
        name: "one chain, a row near its top for each operator",
        make: rows_near_the_top,
    },
    Family {
        name: "conditions that all fold to false",
        make: all_fold,
    },
    Family {
        name: "a deep \"when\" over all atoms, false at its top",
        make: deep_when,
    },
    Family {
        name: "a deep \"when\" for each operator, false at its top",
        make: deep_whens,
    },
    Family {
        name: "a deep \"when\" below one of each operator's own",
        make: own_whens,
    },
    Family {
        name: "a net that operators enter at many rows",
        make: net,
    },
    Family {
        name: "the same, two rows abreast",
        make: narrow_net,
    },
    Family {
        name: "chain of equivalents, growing",
        make: equivalents_growing,
    },
    Family {
        name: "chain of equivalents, folding",
        make: equivalents_folding,
    },
    Family {
        name: "twins looked for",
        make: twins,
    },
    Family {
        name: "formula rows that hash alike",
        make: alike::formulas,
    },
    Family {
        name: "condition rows that hash alike, for each atom",
        make: alike::conditions,
    },
];

fn draft(size: &Size) -> Draft {
    Draft::new(&vec![0; size.variables])
}

/// Each variable is set, and cleared if there is room: at most so many rows.
pub fn atoms(draft: &mut Draft, size: &Size, most: usize) -> Vec<u16> {
    let mut all: Vec<u16> = Vec::new();
    for v in 0..size.variables.min(most) {
        all.push(draft.set(v as u16));
    }
    for v in 0..size.variables.min(most - all.len()) {
        all.push(draft.clear(v as u16));
    }
    all
}

/// Every atom under a condition, and all of them joined: 4 rows each.
fn tree(draft: &mut Draft, size: &Size, condition: u16) -> u16 {
    let all = atoms(draft, size, size.effects / 3);
    let rules: Vec<u16> = all
        .iter()
        .map(|&atom| draft.under(condition, atom))
        .collect();
    draft.all(&rules)
}

fn same_operators(draft: &mut Draft, size: &Size, precondition: u16, root: u16) {
    for i in 0..size.operators {
        draft.operator(precondition, root, i as u16);
    }
}

/// Every condition is true: three walks for each variable and operator, then
/// refused for the rules.
fn one_tree(size: &Size) -> Task {
    let mut draft = draft(size);
    let yes = draft.yes();
    let root = tree(&mut draft, size, yes);
    same_operators(&mut draft, size, yes, root);
    draft.finish(yes)
}

/// Every condition is false, so there are no rules, and all operators are
/// walked twice.
fn all_fold(size: &Size) -> Task {
    let mut draft = draft(size);
    let yes = draft.yes();
    let no = draft.formula(formula::FALSE, 0, 0);
    let root = tree(&mut draft, size, no);
    same_operators(&mut draft, size, yes, root);
    draft.finish(yes)
}

/// The same, each operator with a row of its own.
fn rows_near_the_top(size: &Size) -> Task {
    let mut draft = draft(size);
    let yes = draft.yes();
    let no = draft.formula(formula::FALSE, 0, 0);
    let root = tree(&mut draft, size, no);
    for i in 0..size.operators {
        draft.operator(yes, root - i as u16, i as u16);
    }
    draft.finish(yes)
}

/// All atoms, then as many rows "under a variable" as there is room for.
fn whens(draft: &mut Draft, size: &Size, spare: usize) -> u16 {
    let variables = size.variables.min(size.formulas - 2);
    let conditions: Vec<u16> = (0..variables).map(|v| draft.variable(v as u16)).collect();
    let all = atoms(draft, size, size.effects / 4);
    let mut root = draft.all(&all);
    let mut k = 0;
    while usize::from(root) + 1 + spare < size.effects {
        root = draft.under(conditions[k % variables], root);
        k += 1;
    }
    root
}

/// Each walk finds every row of the chain again, to fold at the top.
fn deep_when(size: &Size) -> Task {
    let mut draft = draft(size);
    let yes = draft.yes();
    let no = draft.formula(formula::FALSE, 0, 0);
    let chain = whens(&mut draft, size, 1);
    let root = draft.under(no, chain);
    same_operators(&mut draft, size, yes, root);
    draft.finish(yes)
}

/// The same with a top for each operator, so that no two have one effect.
fn deep_whens(size: &Size) -> Task {
    let mut draft = draft(size);
    let yes = draft.yes();
    let no = draft.formula(formula::FALSE, 0, 0);
    let chain = whens(&mut draft, size, size.operators);
    for i in 0..size.operators {
        let root = draft.under(no, chain - i as u16);
        draft.operator(yes, root, i as u16);
    }
    draft.finish(yes)
}

/// The same, and between top and chain a variable that is the operator's own:
/// a row of its own is built, from every atom's.
fn own_whens(size: &Size) -> Task {
    let mut draft = draft(size);
    let yes = draft.yes();
    let no = draft.formula(formula::FALSE, 0, 0);
    let chain = whens(&mut draft, size, 2 * size.operators);
    for i in 0..size.operators {
        let own = 2 + (i % size.variables.min(size.formulas - 2)) as u16;
        let inner = draft.under(own, chain);
        let root = draft.under(no, inner);
        draft.operator(yes, root, i as u16);
    }
    draft.finish(yes)
}

fn net(size: &Size) -> Task {
    nets::net(8, 7, size)
}

fn narrow_net(size: &Size) -> Task {
    nets::net(2, 7, size)
}

/// Each is equivalent to a variable, in turn: image and negated image, three
/// rows each.
pub fn equivalents_growing(size: &Size) -> Task {
    let variables = (size.variables / 2).min(8);
    let mut draft = Draft::new(&vec![0; variables]);
    let all: Vec<u16> = (0..variables).map(|v| draft.variable(v as u16)).collect();
    let mut top = all[0];
    for k in 4..size.formulas / 6 {
        top = draft.equivalent(top, all[k % variables]);
    }
    draft.finish(top)
}

/// Each is equivalent to true: all fold, and the last is asked for negated.
fn equivalents_folding(size: &Size) -> Task {
    let mut draft = Draft::new(&[0]);
    let (mut top, yes) = (draft.variable(0), draft.yes());
    for _ in 3..size.formulas {
        top = draft.equivalent(top, yes);
    }
    let goal = draft.not(top);
    draft.finish(goal)
}

/// All twins there can be, each looked for by many rows.
fn twins(size: &Size) -> Task {
    let half = size.variables / 2;
    let mut draft = Draft::new(&vec![0; half]);
    let no = draft.formula(formula::FALSE, 0, 0);
    let mut goal = no;
    let mut k = 0;
    while usize::from(goal) + 3 < size.formulas {
        // the last twin is the one that is searched longest
        let v = if k < half { k } else { half - 1 };
        let atom = draft.variable(v as u16);
        let other = draft.not(atom);
        goal = draft.and(goal, other);
        k += 1;
    }
    draft.finish(goal)
}
