//! Worked examples: 01's "Sheets to try" and the tasks of 000, 001 and 002.

use crate::draft::Draft;
use crate::task::*;

/// 01's whole example.
pub fn whole() -> Task {
    Task {
        head: Head::from_words([2, 0, 5, 4, 1, 4]),
        tables: Tables {
            initial: vec![0, 1],
            twins: vec![],
            formulas: vec![2, 0, 0, 2, 1, 0, 3, 0, 0, 3, 1, 0, 4, 0, 3],
            effects: vec![1, 0, 0, 2, 1, 0, 4, 1, 1, 3, 0, 2],
            operators: full_price(2, 3, 3).to_vec(),
        },
    }
}

/// What the compiling program prints for it.
pub const WHOLE_PRINTED: &str = "\
t 4 2 7 12 1 6
i 0110
w 2 0
w 3 1
f 0 0 0 0
f 1 1 0 0
f 2 2 2 0
f 3 2 1 0
f 4 2 0 0
f 5 2 3 0
f 6 4 4 5
e 0 0 0 0
e 1 1 0 0
e 2 4 1 1
e 3 2 2 0
e 4 4 1 3
e 5 3 2 4
e 6 2 1 0
e 7 4 3 6
e 8 3 5 7
e 9 1 3 0
e 10 4 3 9
e 11 3 8 10
o 0 2 11 3 100
";

/// The task of the smallest file: no variables, goal true.
pub fn smallest() -> Task {
    let mut draft = Draft::new(&[]);
    let goal = draft.yes();
    draft.finish(goal)
}

pub const SMALLEST_FILE: [u8; 4] = [0x04, 0x01, 0x00, 0x10];

/// Sets and clears v0 together.
pub fn set_and_clear() -> Task {
    let mut draft = Draft::new(&[0]);
    let yes = draft.yes();
    let (set, clear) = (draft.set(0), draft.clear(0));
    let effect = draft.all(&[set, clear]);
    draft.operator(yes, effect, 1);
    draft.finish(yes)
}

/// v0 sets v1, v1 is always cleared.
pub fn set_under_other() -> Task {
    let mut draft = Draft::new(&[0, 1]);
    let (yes, v0) = (draft.yes(), draft.variable(0));
    let (set, clear) = (draft.set(1), draft.clear(1));
    let set = draft.under(v0, set);
    let effect = draft.all(&[set, clear]);
    draft.operator(yes, effect, 1);
    draft.finish(yes)
}

/// Sets v0 under not v0, clears v0 under v0.
pub fn toggle() -> Task {
    let mut draft = Draft::new(&[0]);
    let (yes, v0) = (draft.yes(), draft.variable(0));
    let not_v0 = draft.not(v0);
    let (set, clear) = (draft.set(0), draft.clear(0));
    let (set, clear) = (draft.under(not_v0, set), draft.under(v0, clear));
    let effect = draft.all(&[set, clear]);
    draft.operator(yes, effect, 1);
    draft.finish(yes)
}

/// The empty effect under not v0.
pub fn formula_over_empty() -> Task {
    let mut draft = Draft::new(&[0]);
    let (yes, v0) = (draft.yes(), draft.variable(0));
    let not_v0 = draft.not(v0);
    let empty = draft.effect(effect::EMPTY, 0, 0);
    let effect = draft.under(not_v0, empty);
    draft.operator(yes, effect, 1);
    draft.finish(yes)
}

/// One operator of the greatest cost that does nothing.
pub fn costly() -> Task {
    priced(65_535, FULL_PERCENT)
}

/// One operator of this cost and percent that does nothing.
pub fn priced(cost: u16, percent: u16) -> Task {
    let mut draft = Draft::new(&[]);
    let yes = draft.yes();
    let empty = draft.effect(effect::EMPTY, 0, 0);
    draft.operator_row([yes, empty, cost, percent]);
    draft.finish(yes)
}

/// Cost, percent and the charge (02, K2): to the nearest whole, a half
/// upwards.
pub const CHARGES: [(u16, u16, u64); 34] = [
    (0, 0, 0),
    (0, 200, 0),
    (1, 0, 0),
    (1, 1, 0),
    (1, 49, 0),
    (1, 50, 1),
    (1, 51, 1),
    (1, 99, 1),
    (1, 100, 1),
    (1, 149, 1),
    (1, 150, 2),
    (1, 200, 2),
    (2, 24, 0),
    (2, 25, 1),
    (3, 50, 2),
    (3, 150, 5),
    (5, 50, 3),
    (7, 7, 0),
    (33, 50, 17),
    (49, 1, 0),
    (50, 1, 1),
    (149, 1, 1),
    (150, 1, 2),
    (99, 99, 98),
    (101, 99, 100),
    (65_534, 50, 32_767),
    (65_535, 0, 0),
    (65_535, 1, 655),
    (65_535, 50, 32_768),
    (65_535, 99, 64_880),
    (65_535, 100, 65_535),
    (65_535, 101, 66_190),
    (65_535, 199, 130_415),
    (65_535, 200, 131_070),
];

/// 002's running example; i, w, t1, t2 are variables 0 to 3.
pub fn running() -> Task {
    let mut draft = Draft::new(&[0, 1, 0, 0]);
    let yes = draft.yes();
    let [i, w, t1, t2] = [0, 1, 2, 3].map(|v| draft.variable(v));
    let [not_i, not_w, not_t1, not_t2] = [i, w, t1, t2].map(|f| draft.not(f));
    for (variable, on, off) in [(2, t1, not_t1), (3, t2, not_t2)] {
        let (clear, set) = (draft.clear(variable), draft.set(variable));
        let (clear, set) = (draft.under(on, clear), draft.under(off, set));
        let effect = draft.all(&[clear, set]);
        draft.operator(yes, effect, 5);
    }
    let (set_i, set_w, clear_w) = (draft.set(0), draft.set(1), draft.clear(1));
    for (track, change) in [(t1, set_w), (t2, clear_w)] {
        let same = draft.equivalent(w, track);
        let precondition = draft.and(not_i, same);
        let effect = draft.all(&[set_i, change]);
        draft.operator(precondition, effect, 1);
    }
    let mut parts = vec![draft.clear(0)];
    for (side, on, off) in [(w, t1, not_t1), (not_w, t2, not_t2)] {
        let (one, other) = (draft.under(on, set_w), draft.under(off, clear_w));
        let inner = draft.all(&[one, other]);
        parts.push(draft.under(side, inner));
    }
    let unload = draft.all(&parts);
    draft.operator(i, unload, 1);
    let goal = draft.and(not_i, not_w);
    draft.finish(goal)
}

/// A journey whose cheapest plan is neither the shortest nor the first by
/// numbers; halfway, there, pass are variables 0 to 2. Operators: a pass that
/// is free; direct; two ways halfway; on from there, without and with a pass.
pub fn journey() -> Task {
    let mut draft = Draft::new(&[0, 0, 0]);
    let yes = draft.yes();
    let [halfway, there, pass] = [0, 1, 2].map(|v| draft.variable(v));
    let (not_halfway, both) = (draft.not(halfway), draft.and(halfway, pass));
    let [go_halfway, arrive, get_pass] = [0, 1, 2].map(|v| draft.set(v));
    draft.operator(yes, get_pass, 0);
    draft.operator(not_halfway, arrive, 9);
    draft.operator(yes, go_halfway, 1);
    draft.operator(yes, go_halfway, 1);
    draft.operator(halfway, arrive, 3);
    draft.operator(both, arrive, 3);
    draft.finish(there)
}

/// A journey with percents: they decide, and by the costs alone another
/// plan were the cheapest; halfway, there are variables 0 and 1. Operators:
/// direct (5), two ways halfway (3 at 50, 1 at 200), two on from there (5 at
/// 50, 9 at 0).
pub fn percents() -> Task {
    let mut draft = Draft::new(&[0, 0]);
    let yes = draft.yes();
    let [halfway, there] = [0, 1].map(|v| draft.variable(v));
    let not_halfway = draft.not(halfway);
    let [go_halfway, arrive] = [0, 1].map(|v| draft.set(v));
    draft.operator(not_halfway, arrive, 5);
    draft.operator_row([yes, go_halfway, 3, 50]);
    draft.operator_row([yes, go_halfway, 1, 200]);
    draft.operator_row([halfway, arrive, 5, 50]);
    draft.operator_row([halfway, arrive, 9, 0]);
    draft.finish(there)
}

/// 002's bicycle; home, uni, lecture, bike, locked are variables 0 to 4.
pub fn bicycle() -> Task {
    let mut draft = Draft::new(&[1, 0, 0, 1, 1]);
    let [home, uni, lecture, bike, locked] = [0, 1, 2, 3, 4].map(|v| draft.variable(v));
    let unlocked = draft.not(locked);
    let ready = draft.and(bike, unlocked);
    let ride = draft.and(home, bike);
    let ride = draft.and(ride, unlocked);
    let chained = draft.and(bike, locked);
    let (leave, arrive) = (draft.clear(0), draft.set(1));
    let effect = draft.all(&[leave, arrive]);
    draft.operator(ride, effect, 1);
    let unlock = draft.clear(4);
    draft.operator(chained, unlock, 1);
    let lock = draft.set(4);
    draft.operator(ready, lock, 1);
    let (attend, lose) = (draft.set(2), draft.clear(3));
    let lose = draft.under(ready, lose);
    let effect = draft.all(&[attend, lose]);
    draft.operator(uni, effect, 1);
    let goal = draft.and(lecture, bike);
    draft.finish(goal)
}

/// 000's effect before flattening; a, b, c, d are variables 0 to 3.
pub fn flat_effect() -> Task {
    let mut draft = Draft::new(&[0, 0, 0, 0]);
    let yes = draft.yes();
    let [a, b, c] = [0, 1, 2].map(|v| draft.variable(v));
    let not_b = draft.not(b);
    let (set_b, set_c) = (draft.set(1), draft.set(2));
    let [clear_a, clear_b, clear_d] = [0, 1, 3].map(|v| draft.clear(v));
    let inner = draft.all(&[set_b, clear_d, clear_a]);
    let inner = draft.under(c, inner);
    let middle = draft.all(&[clear_b, inner]);
    let middle = draft.under(a, middle);
    let last = draft.under(not_b, clear_a);
    let effect = draft.all(&[set_c, middle, last]);
    draft.operator(yes, effect, 1);
    draft.finish(yes)
}

/// 001's effect before its normal form; a, b, c, d, e are variables 0 to 4.
pub fn effect_normal_form() -> Task {
    let mut draft = Draft::new(&[1, 0, 1, 1, 0]);
    let yes = draft.yes();
    let [a, b, c, e] = [0, 1, 2, 4].map(|v| draft.variable(v));
    let not_b = draft.not(b);
    let (set_b, set_e, clear_d) = (draft.set(1), draft.set(4), draft.clear(3));
    let inner = draft.all(&[clear_d, set_e]);
    let inner = draft.under(c, inner);
    let outer = draft.all(&[set_b, inner]);
    let outer = draft.under(a, outer);
    let last = draft.under(not_b, set_e);
    let effect = draft.all(&[outer, last]);
    draft.operator(yes, effect, 1);
    draft.finish(e)
}

/// Formula i is "i - 1 equivalent to i - 1": trees of exponential size.
pub fn doubling_formulas(depth: u16) -> Task {
    let mut draft = Draft::new(&[0]);
    let mut top = draft.variable(0);
    for _ in 0..depth {
        top = draft.equivalent(top, top);
    }
    draft.finish(top)
}

/// Effect i is "both i - 1 and i - 1", and conflicts with a clear.
pub fn doubling_effects(depth: u16) -> Task {
    let mut draft = Draft::new(&[0, 0]);
    let v1 = draft.variable(1);
    let (set, clear) = (draft.set(0), draft.clear(0));
    let (set, clear) = (draft.under(v1, set), draft.under(v1, clear));
    let mut top = draft.all(&[set, clear]);
    for _ in 0..depth {
        top = draft.all(&[top, top]);
    }
    draft.operator(v1, top, 1);
    draft.finish(v1)
}

/// A chain of conjunctions: so many formula rows, all different and reached.
/// The compiled task has two rows more.
pub fn conjunctions(rows: u16) -> Task {
    let mut draft = Draft::new(&[0]);
    let first = draft.variable(0);
    let mut top = first;
    for _ in 1..rows {
        top = draft.and(top, first);
    }
    draft.finish(top)
}

/// Operators that set the first so many of 512 variables, a rule for each:
/// an operator with r rules takes 3 r - 1 effect rows.
pub fn many_rules(counts: &[u16]) -> Task {
    let (draft, yes) = rules(MOST_VARIABLES, counts);
    draft.finish(yes)
}

/// The same over 500 variables, with the goal "not v0": v0's twin, met last,
/// is one rule more for every operator.
pub fn rules_and_last_twin(counts: &[u16]) -> Task {
    let (mut draft, _) = rules(500, counts);
    let v0 = draft.variable(0);
    let goal = draft.not(v0);
    draft.finish(goal)
}

/// The operators, and the row of true.
fn rules(variables: usize, counts: &[u16]) -> (Draft, u16) {
    let mut draft = Draft::new(&vec![0; variables]);
    let yes = draft.yes();
    let mut tops = vec![draft.set(0)];
    for variable in 1..variables {
        let atom = draft.set(variable as u16);
        tops.push(draft.all(&[tops[variable - 1], atom]));
    }
    for &count in counts {
        draft.operator(yes, tops[usize::from(count) - 1], 1);
    }
    (draft, yes)
}

/// So many variables; the operator's conflict brings a twin, and the goal so
/// many more.
pub fn last_twins(variables: u16, twins: u16) -> Task {
    let mut draft = Draft::new(&vec![0; usize::from(variables)]);
    let (yes, v1) = (draft.yes(), draft.variable(1));
    let (set, clear) = (draft.set(0), draft.clear(0));
    let set = draft.under(v1, set);
    let effect = draft.all(&[set, clear]);
    draft.operator(yes, effect, 1);
    let mut goal = yes;
    for variable in (0..variables).filter(|&v| v != 1).take(usize::from(twins)) {
        let atom = draft.variable(variable);
        let negated = draft.not(atom);
        goal = draft.and(goal, negated);
    }
    draft.finish(goal)
}

/// So many variables, of which the first so many get a twin.
pub fn some_twins(variables: u16, twins: u16) -> Task {
    let mut draft = Draft::new(&vec![0; usize::from(variables)]);
    let mut goal = draft.yes();
    for variable in 0..twins {
        let atom = draft.variable(variable);
        let negated = draft.not(atom);
        goal = draft.and(goal, negated);
    }
    draft.finish(goal)
}
