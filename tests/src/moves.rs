//! Random tasks of few variables for planning: operators that ask for some
//! values and change few, and operators that go along a line of all states,
//! so that plans have many steps.

use crate::draft::Draft;
use crate::generate::percent;
use crate::random::Random;
use crate::task::{effect, formula, Task};

/// The truth of each variable and of its negation, as rows of a draft.
struct Literals {
    rows: Vec<[u16; 2]>,
    yes: u16,
}

impl Literals {
    fn of(draft: &mut Draft, variables: usize) -> Literals {
        let yes = draft.yes();
        let rows = (0..variables as u16)
            .map(|v| {
                let plain = draft.variable(v);
                [draft.not(plain), plain]
            })
            .collect();
        Literals { rows, yes }
    }

    /// A literal of any variable.
    fn any(&self, random: &mut Random) -> u16 {
        self.rows[random.below(self.rows.len())][random.below(2)]
    }

    /// That the variables of the mask have the values of the code.
    fn values(&self, draft: &mut Draft, mask: usize, code: usize) -> u16 {
        let mut whole = self.yes;
        for (v, literals) in self.rows.iter().enumerate() {
            if mask >> v & 1 == 1 {
                whole = draft.and(whole, literals[code >> v & 1]);
            }
        }
        whole
    }
}

/// The variables of the mask get the values of the code; some of them only
/// under a value of another variable.
fn some_values(
    random: &mut Random,
    draft: &mut Draft,
    literals: &Literals,
    mask: usize,
    code: usize,
) -> u16 {
    let mut parts = vec![draft.effect(effect::EMPTY, 0, 0)];
    for v in 0..literals.rows.len() {
        if mask >> v & 1 == 0 {
            continue;
        }
        let atom = match code >> v & 1 {
            1 => draft.set(v as u16),
            _ => draft.clear(v as u16),
        };
        let part = match random.below(4) {
            0 => draft.under(literals.any(random), atom),
            _ => atom,
        };
        parts.push(part);
    }
    draft.all(&parts)
}

/// A number whose bits below `variables` are each 1 in `percent` of 100.
fn bits(random: &mut Random, variables: usize, percent: usize) -> usize {
    (0..variables).fold(0, |code, v| code | usize::from(random.chance(percent)) << v)
}

/// The state of a code.
fn bytes(code: usize, variables: usize) -> Vec<u8> {
    (0..variables).map(|v| (code >> v & 1) as u8).collect()
}

/// So many operators of costs below `costs`; the goal is one state, or a few.
pub fn task(random: &mut Random, variables: usize, operators: usize, costs: usize) -> Task {
    let initial = bits(random, variables, 50);
    let mut draft = Draft::new(&bytes(initial, variables));
    let literals = Literals::of(&mut draft, variables);
    let (asked, changed) = (random.pick(&[0, 30, 60, 90]), random.pick(&[15, 30, 60]));
    let all = (1 << variables) - 1;
    for _ in 0..operators {
        let mask = bits(random, variables, asked);
        let before = bits(random, variables, 50);
        let condition = literals.values(&mut draft, mask, before);
        let (mask, after) = (
            bits(random, variables, changed),
            bits(random, variables, 50),
        );
        let effect = some_values(random, &mut draft, &literals, mask, after);
        let cost = random.below(costs) as u16;
        draft.operator_row([condition, effect, cost, percent(random)]);
    }
    let missing = random.pick(&[0, 0, 0, 20]);
    let mask = all & !bits(random, variables, missing);
    let end = match random.below(8) {
        0 => bits(random, variables, 50),
        _ => all & !initial,
    };
    let goal = literals.values(&mut draft, mask, end);
    draft.finish(goal)
}

/// All states stand in a line, from the initial one to the goal; an operator
/// leads from a state to the next in the line, or to one before.
pub fn line(random: &mut Random, variables: usize, operators: usize, costs: usize) -> Task {
    let states = 1 << variables;
    let mut line: Vec<usize> = (0..states).collect();
    for place in 0..states {
        line.swap(place, random.between(place, states - 1));
    }
    let mut draft = Draft::new(&bytes(line[0], variables));
    let literals = Literals::of(&mut draft, variables);
    let all = states - 1;
    let is: Vec<u16> = (0..states)
        .map(|code| literals.values(&mut draft, all, code))
        .collect();
    let gives: Vec<u16> = (0..states)
        .map(|code| assignment(&mut draft, variables, code))
        .collect();
    let (forwards, applicable) = (random.pick(&[20, 50, 80]), random.pick(&[40, 80, 95]));
    for _ in 0..operators {
        let mut condition = draft.formula(formula::FALSE, 0, 0);
        let mut parts = vec![draft.effect(effect::EMPTY, 0, 0)];
        for place in 0..states {
            if !random.chance(applicable) {
                continue;
            }
            let next = match random.chance(forwards) {
                true => (place + 1).min(states - 1),
                false => random.below(place + 1),
            };
            condition = draft.formula(formula::OR, condition, is[line[place]]);
            parts.push(draft.under(is[line[place]], gives[line[next]]));
        }
        let effect = draft.all(&parts);
        let cost = random.below(costs) as u16;
        draft.operator_row([condition, effect, cost, percent(random)]);
    }
    let last = random.between(states / 2, states - 1);
    let other = random.pick(&[last, states - 1]);
    let goal = draft.formula(formula::OR, is[line[last]], is[line[other]]);
    draft.finish(goal)
}

/// Every variable gets the value of the code.
fn assignment(draft: &mut Draft, variables: usize, code: usize) -> u16 {
    let mut parts = vec![draft.effect(effect::EMPTY, 0, 0)];
    for v in 0..variables {
        let atom = match code >> v & 1 {
            1 => draft.set(v as u16),
            _ => draft.clear(v as u16),
        };
        parts.push(atom);
    }
    draft.all(&parts)
}
