//! Group `compiling`: runs on sources and on the tables that compiling gave
//! are alike, from corresponding states.

use saqwillo_tests::examples;
use saqwillo_tests::file::LARGEST;
use saqwillo_tests::generate::{self, Shape};
use saqwillo_tests::harness::{dump_task, same, Test, Trial, Verdict};
use saqwillo_tests::lent::Lent;
use saqwillo_tests::task::*;

use crate::calls::compiling::compile;
use crate::calls::running::{run, Left};
use crate::compiling::{compiled_task, scratch_of};

pub fn tests() -> Vec<Test> {
    let test = |name, body| Test {
        group: "compiling",
        name,
        body,
    };
    vec![
        test("demand 3, random tasks", random_tasks),
        test("demand 3, larger tasks", larger_tasks),
        test("demand 3, worked examples", worked_examples),
    ]
}

/// The compiled state that corresponds to a source state.
fn corresponding(compiled: &Task, state: &[u8]) -> Vec<u8> {
    let twins = compiled.tables.twins.iter();
    let opposite = twins.map(|&original| 1 - state[usize::from(original)]);
    state.iter().copied().chain(opposite).collect()
}

fn library_run(trial: &mut Trial, task: &Task, state: &[u8], sequence: &[u16]) -> Left {
    let result = Lent::dirty(&mut trial.random, 6);
    run(
        &mut trial.random,
        task,
        state,
        scratch_of(task) / 2,
        sequence,
        result,
    )
}

/// The library's compiled task, unless it passes the limits.
fn compiled(trial: &mut Trial, task: &Task) -> Option<Task> {
    let answer = compile(&mut trial.random, task, &LARGEST, scratch_of(task));
    (answer.number == 0).then(|| compiled_task(&answer))
}

fn alike(
    trial: &mut Trial,
    task: &Task,
    compiled: &Task,
    state: &[u8],
    sequence: &[u16],
) -> Verdict {
    trial.case();
    let source = library_run(trial, task, state, sequence);
    let other = library_run(trial, compiled, &corresponding(compiled, state), sequence);
    let answers = (source.number, &source.result) == (other.number, &other.result);
    if answers && other.state == corresponding(compiled, &source.state) {
        return Ok(());
    }
    Err(format!(
        "{}\n  state {state:?} sequence {sequence:?}\n  source {:?} {:?}\n  compiled {:?} {:?}",
        dump_task(task),
        source.result,
        source.state,
        other.result,
        other.state
    ))
}

/// Random states and sequences of one task.
fn some_runs(trial: &mut Trial, task: &Task, compiled: &Task, rounds: usize) -> Verdict {
    let initial = corresponding(compiled, &task.tables.initial);
    same("initial states", &compiled.tables.initial, &initial)?;
    for _ in 0..rounds {
        let state = generate::state(&mut trial.random, task.tables.initial.len());
        let mut sequence = generate::sequence(&mut trial.random, task.head.operator_count);
        for _ in 0..trial.random.below(3) {
            sequence.extend(sequence.clone());
        }
        alike(trial, task, compiled, &state, &sequence)?;
    }
    Ok(())
}

fn random_tasks(trial: &mut Trial) -> Verdict {
    for _ in 0..5000 {
        let shape = Shape::small(&mut trial.random, false);
        let mut task = generate::task(&mut trial.random, &shape);
        if trial.random.chance(40) {
            task = generate::with_twins_in_goal(&mut trial.random, task);
        }
        if let Some(compiled) = compiled(trial, &task) {
            some_runs(trial, &task, &compiled, 6)?;
        }
    }
    Ok(())
}

fn larger_tasks(trial: &mut Trial) -> Verdict {
    let mut finished = 0;
    for round in 0..300 {
        let shape = match round % 6 {
            0 => Shape::large(&mut trial.random),
            _ => Shape::middle(&mut trial.random, false),
        };
        let task = generate::task(&mut trial.random, &shape);
        if let Some(compiled) = compiled(trial, &task) {
            finished += 1;
            some_runs(trial, &task, &compiled, 10)?;
        }
    }
    same("enough finish", finished > 100, true)
}

fn worked_examples(trial: &mut Trial) -> Verdict {
    for task in [
        examples::whole(),
        examples::set_and_clear(),
        examples::set_under_other(),
        examples::toggle(),
        examples::running(),
        examples::bicycle(),
        examples::flat_effect(),
        examples::doubling_effects(300),
    ] {
        let Some(compiled) = compiled(trial, &task) else {
            return Err("  a worked example does not compile".to_string());
        };
        some_runs(trial, &task, &compiled, 300)?;
    }
    Ok(())
}
