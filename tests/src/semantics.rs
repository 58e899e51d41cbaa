//! Steps and runs (01, "Stepping and running"; the semantics of 002).

use crate::atoms::Atom;
use crate::check::check;
use crate::task::*;

/// Most operator numbers in a run.
pub const MOST_STEPS: usize = 65_535;

/// The charge of a step: cost x percent / 100, a half upwards (02, K2).
pub fn charge(cost: u16, percent: u16) -> u64 {
    let hundredths = u64::from(cost) * u64::from(percent);
    let (whole, rest) = (hundredths / 100, hundredths % 100);
    whole + u64::from(rest >= 50)
}

/// The truth value of every formula in a state, lower rows first.
pub fn formula_values(task: &Task, state: &[u8]) -> Vec<bool> {
    let mut values: Vec<bool> = Vec::new();
    for i in 0..usize::from(task.head.formula_count) {
        let [kind, a, b] = task.formula(i);
        let (a, b) = (usize::from(a), usize::from(b));
        let value = match kind {
            formula::FALSE => false,
            formula::TRUE => true,
            formula::VARIABLE => state[a] == 1,
            formula::NOT => !values[a],
            formula::AND => values[a] && values[b],
            formula::OR => values[a] || values[b],
            formula::IMPLIES => !values[a] || values[b],
            _ => values[a] == values[b],
        };
        values.push(value);
    }
    values
}

/// The effect rows that act if `root` does, higher rows first.
pub fn acting(task: &Task, root: usize, values: &[bool]) -> Vec<bool> {
    let mut acts = vec![false; root + 1];
    acts[root] = true;
    for i in (0..=root).rev() {
        if !acts[i] {
            continue;
        }
        let [kind, a, b] = task.effect(i);
        let (a, b) = (usize::from(a), usize::from(b));
        match kind {
            effect::BOTH => {
                acts[a] = true;
                acts[b] = true;
            }
            effect::UNDER if values[a] => acts[b] = true,
            _ => {}
        }
    }
    acts
}

/// effcond of an atom as a truth value, by 002's definition. It may take
/// exponential time; the tests hold `acting` to it.
pub fn effcond(task: &Task, atom: Atom, root: usize, values: &[bool]) -> bool {
    let [kind, a, b] = task.effect(root);
    let inner = |row: u16| effcond(task, atom, usize::from(row), values);
    match kind {
        effect::EMPTY => false,
        effect::SET | effect::CLEAR => (kind, a) == atom,
        effect::BOTH => inner(a) || inner(b),
        _ => values[usize::from(a)] && inner(b),
    }
}

/// The state after an effect: all clears, then all sets, so that sets win.
fn after(task: &Task, root: usize, state: &[u8], values: &[bool]) -> Vec<u8> {
    let acts = acting(task, root, values);
    let mut next = state.to_vec();
    for (atom, value) in [(effect::CLEAR, 0), (effect::SET, 1)] {
        for (i, _) in acts.iter().enumerate().filter(|(_, &acts)| acts) {
            let [kind, a, _] = task.effect(i);
            if kind == atom {
                next[usize::from(a)] = value;
            }
        }
    }
    next
}

/// The answers of the plain run.
#[derive(Clone, Debug, PartialEq, Eq)]
pub struct PlainRun {
    pub state: Vec<u8>,
    pub steps: u128,
    pub cost: u128,
    pub stop: Option<Refusal>,
    pub goal: bool,
}

/// The plain run, over a list of any length.
pub fn plain_run(task: &Task, state: &[u8], sequence: &[u16]) -> PlainRun {
    let mut state = state.to_vec();
    let mut values = formula_values(task, &state);
    let (mut steps, mut cost) = (0, 0);
    let mut stop = None;
    for &operator in sequence {
        if operator >= task.head.operator_count {
            stop = Some(17);
            break;
        }
        let [precondition, root, price, percent] = task.operator(usize::from(operator));
        if !values[usize::from(precondition)] {
            stop = Some(18);
            break;
        }
        state = after(task, usize::from(root), &state, &values);
        values = formula_values(task, &state);
        steps += 1;
        cost += u128::from(charge(price, percent));
    }
    let goal = values[usize::from(task.head.goal)];
    PlainRun {
        state,
        steps,
        cost,
        stop,
        goal,
    }
}

/// What a step or run leaves: 0 or the refusal, its answers, the state and
/// the scratch.
#[derive(Clone, Debug, PartialEq, Eq)]
pub struct Outcome {
    pub number: Refusal,
    pub steps: u32,
    pub cost: u64,
    pub goal: bool,
    /// 17 or 18 if a run was stopped.
    pub stop: Option<Refusal>,
    pub state: Vec<u8>,
    pub scratch: Vec<u8>,
}

impl Outcome {
    /// An unstopped run that ends with the goal true.
    pub fn is_plan(&self) -> bool {
        self.number == 0 && self.stop.is_none() && self.goal
    }

    fn refused(number: Refusal, state: &[u8], scratch_length: usize) -> Outcome {
        Outcome {
            number,
            steps: 0,
            cost: 0,
            goal: false,
            stop: None,
            state: state.to_vec(),
            scratch: vec![0; scratch_length],
        }
    }

    fn done(run: PlainRun, scratch_length: usize) -> Outcome {
        Outcome {
            number: 0,
            steps: u32::try_from(run.steps).expect("at most 65,535 steps"),
            cost: u64::try_from(run.cost).expect("below 2^33"),
            goal: run.goal,
            stop: run.stop,
            state: run.state,
            scratch: vec![0; scratch_length],
        }
    }
}

/// The tables' numbers, then 16, then 14.
fn check_call(task: &Task, state: &[u8], scratch_length: usize) -> Result<(), Refusal> {
    check(&task.head, &task.tables)?;
    let head = &task.head;
    if state.len() != usize::from(head.variables) || state.iter().any(|&byte| byte > 1) {
        return Err(16);
    }
    let rows = usize::from(head.formula_count) + usize::from(head.effect_count);
    if scratch_length < rows {
        return Err(14);
    }
    Ok(())
}

/// One step; 17 and 18 are refusals here.
pub fn step(task: &Task, state: &[u8], scratch_length: usize, operator: u16) -> Outcome {
    if let Err(number) = check_call(task, state, scratch_length) {
        return Outcome::refused(number, state, scratch_length);
    }
    let run = plain_run(task, state, &[operator]);
    match run.stop {
        Some(number) => Outcome::refused(number, state, scratch_length),
        None => Outcome::done(run, scratch_length),
    }
}

/// A run; 17 and 18 are stops here.
pub fn run(task: &Task, state: &[u8], scratch_length: usize, sequence: &[u16]) -> Outcome {
    if let Err(number) = check_call(task, state, scratch_length) {
        return Outcome::refused(number, state, scratch_length);
    }
    if sequence.len() > MOST_STEPS {
        return Outcome::refused(19, state, scratch_length);
    }
    Outcome::done(plain_run(task, state, sequence), scratch_length)
}
