//! Group `stepping`: one step, its refusals and its buffers.

use saqwillo_tests::damage;
use saqwillo_tests::draft::Draft;
use saqwillo_tests::examples;
use saqwillo_tests::generate::{self, Shape};
use saqwillo_tests::harness::{dump_task, same, Test, Trial, Verdict};
use saqwillo_tests::lent::Lent;
use saqwillo_tests::random::Random;
use saqwillo_tests::semantics::step;
use saqwillo_tests::shrink::shrink;
use saqwillo_tests::task::*;

use crate::calls::running::{self as calls, Left};

pub fn tests() -> Vec<Test> {
    let test = |name, body| Test {
        group: "stepping",
        name,
        body,
    };
    vec![
        test("random steps", random_steps),
        test("every state", every_state),
        test("all at once, the set wins", all_at_once),
        test("deep and shared rows", deep_and_shared),
        test("charges", charges),
        test("scratch lengths", scratch_lengths),
        test("states", states),
        test("order of refusals", order_of_refusals),
        test("results of other lengths", other_results),
    ]
}

/// A step as it is called: task, state, scratch length, operator.
type Call<'a> = (&'a Task, &'a [u8], usize, u16);

fn expected((task, state, scratch, operator): Call) -> Left {
    let outcome = step(task, state, scratch, operator);
    let result = [outcome.steps.into(), outcome.cost, outcome.goal.into()];
    Left {
        number: outcome.number,
        result: result.to_vec(),
        state: outcome.state,
        scratch: outcome.scratch,
    }
}

fn found(random: &mut Random, (task, state, scratch, operator): Call) -> Left {
    let result = Lent::dirty(random, 3);
    calls::step(random, task, state, scratch, operator, result)
}

/// Both must leave the same; then the number.
fn agree(trial: &mut Trial, call: Call) -> Result<u16, String> {
    trial.case();
    let wanted = expected(call);
    if found(&mut trial.random, call) == wanted {
        return Ok(wanted.number);
    }
    let (task, state, scratch, operator) = call;
    let random = &mut trial.random;
    let least = shrink(task, &mut |task| {
        let call = (task, state, scratch, operator);
        found(random, call) != expected(call)
    });
    let call = (&least, state, scratch, operator);
    Err(format!(
        "{}\n  operator {operator}, state {state:?}\n  other implementation {:?}\n  library {:?}",
        dump_task(&least),
        expected(call),
        found(&mut trial.random, call)
    ))
}

/// Formulas and effects: the bytes of scratch that a step wants.
pub fn scratch_of(task: &Task) -> usize {
    usize::from(task.head.formula_count) + usize::from(task.head.effect_count)
}

pub fn random_task(random: &mut Random) -> Task {
    let shape = match random.below(20) {
        0 => Shape::middle(random, true),
        _ => Shape::small(random, true),
    };
    generate::task(random, &shape)
}

fn random_steps(trial: &mut Trial) -> Verdict {
    for _ in 0..20_000 {
        let task = random_task(&mut trial.random);
        let state = generate::state(&mut trial.random, task.tables.initial.len());
        let scratch = scratch_of(&task) + trial.random.pick(&[0, 0, 1, 9]);
        for operator in 0..task.head.operator_count {
            agree(trial, (&task, &state, scratch, operator))?;
        }
        let outside = task.head.operator_count + trial.random.below(3) as u16;
        for operator in [outside, 65_535] {
            same(
                "outside",
                agree(trial, (&task, &state, scratch, operator))?,
                17,
            )?;
        }
    }
    Ok(())
}

pub fn all_states(variables: usize) -> Vec<Vec<u8>> {
    let state = |code: u32| (0..variables).map(|v| (code >> v & 1) as u8).collect();
    (0..1 << variables).map(state).collect()
}

fn every_state(trial: &mut Trial) -> Verdict {
    for _ in 0..500 {
        let shape = Shape::small(&mut trial.random, true);
        let task = generate::task(&mut trial.random, &shape);
        for state in all_states(task.tables.initial.len()) {
            for operator in 0..=task.head.operator_count {
                agree(trial, (&task, &state, scratch_of(&task), operator))?;
            }
        }
    }
    Ok(())
}

/// Two variables change places; both orders of set and clear; a condition on
/// a variable that the same step changes.
fn all_at_once(trial: &mut Trial) -> Verdict {
    let mut draft = Draft::new(&[0, 1, 0]);
    let yes = draft.yes();
    let [v0, v1, v2] = [0, 1, 2].map(|v| draft.variable(v));
    let mut parts = Vec::new();
    for (variable, other) in [(0, v1), (1, v0)] {
        let not_other = draft.not(other);
        let (set, clear) = (draft.set(variable), draft.clear(variable));
        parts.push(draft.under(other, set));
        parts.push(draft.under(not_other, clear));
    }
    let swap = draft.all(&parts);
    draft.operator(yes, swap, 7);
    let (set, clear) = (draft.set(2), draft.clear(2));
    for effects in [[set, clear], [clear, set]] {
        let both = draft.all(&effects);
        draft.operator(yes, both, 0);
    }
    let toggle = [draft.under(v2, clear), draft.under(v0, set)];
    let toggle = draft.all(&toggle);
    draft.operator(v2, toggle, 65_535);
    let task = draft.finish(v2);
    for state in all_states(3) {
        for operator in 0..5 {
            agree(trial, (&task, &state, scratch_of(&task), operator))?;
        }
        let swapped = found(&mut trial.random, (&task, &state, scratch_of(&task), 0));
        same("swapped", swapped.state, vec![state[1], state[0], state[2]])?;
    }
    Ok(())
}

fn deep_and_shared(trial: &mut Trial) -> Verdict {
    let mut tasks = vec![
        examples::doubling_effects(4000),
        examples::doubling_formulas(4095),
        examples::many_rules(&[1, 511, 512]),
        examples::running(),
    ];
    for _ in 0..10 {
        let shape = Shape::largest(&mut trial.random);
        tasks.push(generate::task(&mut trial.random, &shape));
    }
    for task in tasks {
        for round in 0..10 {
            let state = generate::state(&mut trial.random, task.tables.initial.len());
            let operators = usize::from(task.head.operator_count).max(1);
            let operator = if round < 5 {
                round
            } else {
                trial.random.below(operators)
            };
            agree(trial, (&task, &state, scratch_of(&task), operator as u16))?;
        }
    }
    Ok(())
}

fn charges(trial: &mut Trial) -> Verdict {
    for (cost, percent, charge) in examples::CHARGES {
        let task = examples::priced(cost, percent);
        let call = (&task, &[][..], scratch_of(&task), 0);
        agree(trial, call)?;
        same("charge", expected(call).result[1], charge)?;
    }
    Ok(())
}

/// Every scratch from none to more than enough.
fn scratch_lengths(trial: &mut Trial) -> Verdict {
    for _ in 0..300 {
        let task = random_task(&mut trial.random);
        let needed = scratch_of(&task);
        let state = task.tables.initial.clone();
        let operator = trial.random.below(5) as u16;
        for length in 0..needed + 4 {
            let number = agree(trial, (&task, &state, length, operator))?;
            same("14", number == 14, length < needed)?;
        }
        agree(trial, (&task, &state, needed + 70_000, operator))?;
    }
    Ok(())
}

/// Every length of the state, and every byte.
fn states(trial: &mut Trial) -> Verdict {
    for _ in 0..300 {
        let task = random_task(&mut trial.random);
        let variables = task.tables.initial.len();
        let scratch = scratch_of(&task);
        for length in 0..variables + 4 {
            let state = generate::state(&mut trial.random, length);
            let number = agree(trial, (&task, &state, scratch, 0))?;
            same("16", number == 16, length != variables)?;
        }
        let mut state = generate::state(&mut trial.random, variables);
        for at in 0..variables {
            for byte in [2, 3, 128, 254, 255] {
                let value = std::mem::replace(&mut state[at], byte);
                let number = agree(trial, (&task, &state, scratch, 0))?;
                same("16", number, 16)?;
                state[at] = value;
            }
        }
    }
    Ok(())
}

/// The tables' numbers, then 16, 14, 17, 18.
fn order_of_refusals(trial: &mut Trial) -> Verdict {
    let mut draft = Draft::new(&[0, 0]);
    let (yes, never) = (draft.yes(), draft.formula(formula::FALSE, 0, 0));
    let set = draft.set(1);
    draft.operator(never, set, 9);
    let task = draft.finish(yes);
    let (good, short, high) = (&[0, 1][..], &[0][..], &[0, 2][..]);
    for (what, state, scratch, operator, number) in [
        ("short state first", short, 2, 1, 16),
        ("then a byte above 1", high, 2, 1, 16),
        ("then scratch", good, 2, 1, 14),
        ("then the number", good, 3, 1, 17),
        ("then the precondition", good, 3, 0, 18),
    ] {
        same(
            what,
            agree(trial, (&task, state, scratch, operator))?,
            number,
        )?;
    }
    for damage in damage::damages() {
        let mut task = damage::base();
        (damage.inflict)(&mut task);
        for (state, scratch) in [(&[0; 7][..], 11), (&[2; 7], 11), (&[0; 7], 10), (&[], 0)] {
            let number = agree(trial, (&task, state, scratch, 0))?;
            same(damage.name, number, damage.number)?;
        }
    }
    Ok(())
}

/// A lent result of another length than three is left as it was.
fn other_results(trial: &mut Trial) -> Verdict {
    for length in [0, 1, 2, 4, 6, 50] {
        for operator in 0..2 {
            trial.case();
            let task = examples::toggle();
            let call = (&task, &[1][..], scratch_of(&task), operator);
            let mut wanted = expected(call);
            wanted.result = vec![77; length];
            let result = Lent::filled(length, 77);
            let left = calls::step(&mut trial.random, call.0, call.1, call.2, call.3, result);
            same("left", left, wanted)?;
        }
    }
    Ok(())
}
