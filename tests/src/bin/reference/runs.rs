//! Group `runs`: steps by 002's definition, the order of refusals, buffers.

use saqwillo_tests::examples;
use saqwillo_tests::generate::{self, Shape};
use saqwillo_tests::harness::{dump_task, Test, Trial, Verdict};
use saqwillo_tests::semantics::{charge, effcond, formula_values, plain_run, run, step};
use saqwillo_tests::task::*;

use crate::same;

pub fn tests() -> Vec<Test> {
    let test = |name, body| Test {
        group: "runs",
        name,
        body,
    };
    vec![
        test("steps by the definition", steps_by_definition),
        test("a run is its steps", run_is_its_steps),
        test("charges", charges),
        test("order of refusals", order_of_refusals),
    ]
}

fn random_task(trial: &mut Trial) -> Task {
    let shape = Shape::small(&mut trial.random, true);
    generate::task(&mut trial.random, &shape)
}

fn scratch_of(task: &Task) -> usize {
    usize::from(task.head.formula_count) + usize::from(task.head.effect_count)
}

/// 002: 1 if effcond(set), else 0 if effcond(clear), else unchanged.
fn steps_by_definition(trial: &mut Trial) -> Verdict {
    for _ in 0..20_000 {
        let task = random_task(trial);
        let state = generate::state(&mut trial.random, task.tables.initial.len());
        let values = formula_values(&task, &state);
        for operator in 0..task.head.operator_count {
            trial.case();
            let [precondition, root, cost, percent] = task.operator(usize::from(operator));
            let outcome = step(&task, &state, scratch_of(&task), operator);
            if !values[usize::from(precondition)] {
                let found = (outcome.number, outcome.steps, outcome.cost, outcome.goal);
                same("refused", found, (18, 0, 0, false))?;
                same("state kept", &outcome.state, &state)?;
                continue;
            }
            let next: Vec<u8> = (0..task.head.variables)
                .map(|v| {
                    let fires = |kind| effcond(&task, (kind, v), usize::from(root), &values);
                    match (fires(effect::SET), fires(effect::CLEAR)) {
                        (true, _) => 1,
                        (false, true) => 0,
                        (false, false) => state[usize::from(v)],
                    }
                })
                .collect();
            let goal = formula_values(&task, &next)[usize::from(task.head.goal)];
            let found = (outcome.steps, outcome.cost, outcome.goal, outcome.state);
            let expected = (1, charge(cost, percent), goal, next);
            same(&dump_task(&task), found, expected)?;
        }
    }
    Ok(())
}

/// A run does the steps one by one, and stops at the first refused one.
fn run_is_its_steps(trial: &mut Trial) -> Verdict {
    for _ in 0..20_000 {
        trial.case();
        let task = random_task(trial);
        let scratch = scratch_of(&task);
        let mut state = generate::state(&mut trial.random, task.tables.initial.len());
        let sequence = generate::sequence(&mut trial.random, task.head.operator_count);
        let outcome = run(&task, &state, scratch, &sequence);
        let (mut steps, mut cost, mut stop) = (0, 0, None);
        for &operator in &sequence {
            let one = step(&task, &state, scratch, operator);
            if one.number != 0 {
                stop = Some(one.number);
                break;
            }
            steps += one.steps;
            cost += one.cost;
            state = one.state;
        }
        let found = (outcome.steps, outcome.cost, outcome.stop);
        same(&dump_task(&task), found, (steps, cost, stop))?;
        same("goal", outcome.goal, plain_run(&task, &state, &[]).goal)?;
        same("state", outcome.state, state)?;
    }
    Ok(())
}

/// A charge is at most half a unit above cost x percent / 100, and less than
/// half a unit below; those by hand, alone and in runs.
fn charges(trial: &mut Trial) -> Verdict {
    for cost in 0..=65_535 {
        trial.case();
        for percent in 0..=MOST_PERCENT {
            let hundredths = 100 * charge(cost, percent);
            let exact = u64::from(cost) * u64::from(percent);
            let nearest = hundredths <= exact + 50 && exact < hundredths + 50;
            same(&format!("{cost} at {percent}"), nearest, true)?;
        }
    }
    for (cost, percent, wanted) in examples::CHARGES {
        trial.case();
        same("by hand", charge(cost, percent), wanted)?;
        let task = examples::priced(cost, percent);
        same("step", step(&task, &[], 2, 0).cost, wanted)?;
        same("run", run(&task, &[], 2, &[0; 7]).cost, 7 * wanted)?;
    }
    Ok(())
}

/// Tables, 16, 14, 19, then 17; state kept, scratch 0.
fn order_of_refusals(trial: &mut Trial) -> Verdict {
    let task = generate::plain(Head::from_words([3, 1, 2, 2, 1, 0]));
    let mut broken = task.clone();
    broken.head.goal = 2;
    let (good, short, high) = (vec![0, 1, 0], vec![0, 1], vec![0, 1, 2]);
    let (stops, long) = (vec![1], vec![1; 65_536]);
    for (task, state, scratch, sequence, expected) in [
        (&broken, &short, 3, &long, 7),
        (&task, &short, 3, &long, 16),
        (&task, &high, 3, &long, 16),
        (&task, &good, 3, &long, 14),
        (&task, &good, 4, &long, 19),
        (&task, &good, 4, &stops, 0),
    ] {
        trial.case();
        let outcome = run(task, state, scratch, sequence);
        same("number", outcome.number, expected)?;
        same("stop", outcome.stop, Some(17).filter(|_| expected == 0))?;
        same("goal", outcome.goal, expected == 0)?;
        same("state", &outcome.state, state)?;
        same("scratch", outcome.scratch, vec![0; scratch])?;
    }
    trial.case();
    let refused = step(&task, &good, 4, 1);
    same("step", (refused.number, refused.goal), (17, false))
}
