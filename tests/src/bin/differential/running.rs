//! Group `running`: whole runs, their stops, refusals and buffers.

use saqwillo_tests::damage;
use saqwillo_tests::draft::Draft;
use saqwillo_tests::examples;
use saqwillo_tests::generate::{self, Shape};
use saqwillo_tests::harness::{dump_task, list, same, Test, Trial, Verdict};
use saqwillo_tests::lent::Lent;
use saqwillo_tests::random::Random;
use saqwillo_tests::semantics::run;
use saqwillo_tests::shrink::shrink;
use saqwillo_tests::task::*;

use crate::calls::running::{self as calls, Left};
use crate::stepping::{random_task, scratch_of};

pub fn tests() -> Vec<Test> {
    let test = |name, body| Test {
        group: "running",
        name,
        body,
    };
    vec![
        test("random runs", random_runs),
        test("stops at each place", stops_at_each_place),
        test("the goal where a run stops", goal_where_stopped),
        test("long runs", long_runs),
        test("the longest run", longest_run),
        test("charges", charges),
        test("too long a sequence", too_long),
        test("at the limits", at_the_limits),
        test("scratch lengths and states", scratch_and_states),
        test("order of refusals", order_of_refusals),
        test("results of other lengths", other_results),
    ]
}

/// A run as it is called: task, state, scratch length, sequence.
type Call<'a> = (&'a Task, &'a [u8], usize, &'a [u16]);

/// Steps, cost, goal; the stop's number and step; the goal if it ended.
fn expected((task, state, scratch, sequence): Call) -> Left {
    let outcome = run(task, state, scratch, sequence);
    let [steps, goal] = [u64::from(outcome.steps), u64::from(outcome.goal)];
    let (stop, step, ended) = match outcome.stop {
        Some(number) => (u64::from(number), steps, 0),
        None => (0, 0, goal),
    };
    Left {
        number: outcome.number,
        result: vec![steps, outcome.cost, goal, stop, step, ended],
        state: outcome.state,
        scratch: outcome.scratch,
    }
}

fn found(random: &mut Random, (task, state, scratch, sequence): Call) -> Left {
    let result = Lent::dirty(random, 6);
    calls::run(random, task, state, scratch, sequence, result)
}

/// Both must leave the same; then what they leave.
pub fn agree(trial: &mut Trial, call: Call) -> Result<Left, String> {
    trial.case();
    let wanted = expected(call);
    if found(&mut trial.random, call) == wanted {
        return Ok(wanted);
    }
    let (task, state, scratch, sequence) = call;
    let random = &mut trial.random;
    let least = shrink(task, &mut |task| {
        let call = (task, state, scratch, sequence);
        found(random, call) != expected(call)
    });
    let call = (&least, state, scratch, sequence);
    let (wanted, left) = (expected(call), found(&mut trial.random, call));
    Err(format!(
        "{}\n  sequence {}\n  state {}\n  scratch of {scratch}\n  number, result and state of the other implementation {} {:?} {}\n  of the library {} {:?} {}\n  same scratch {}",
        dump_task(&least),
        list(sequence),
        list(state),
        wanted.number,
        wanted.result,
        list(&wanted.state),
        left.number,
        left.result,
        list(&left.state),
        wanted.scratch == left.scratch,
    ))
}

fn random_runs(trial: &mut Trial) -> Verdict {
    for _ in 0..20_000 {
        let task = random_task(&mut trial.random);
        let scratch = scratch_of(&task) + trial.random.pick(&[0, 0, 1, 9]);
        for _ in 0..3 {
            let state = generate::state(&mut trial.random, task.tables.initial.len());
            let sequence = generate::sequence(&mut trial.random, task.head.operator_count);
            agree(trial, (&task, &state, scratch, &sequence))?;
        }
    }
    Ok(())
}

/// Operator 0 always goes and toggles v0 (cost 3), operator 1 never goes;
/// the goal is v0, or not v0.
fn toggle(goal_is_set: bool) -> Task {
    let mut draft = Draft::new(&[0]);
    let (yes, v0) = (draft.yes(), draft.variable(0));
    let (never, not_v0) = (draft.not(yes), draft.not(v0));
    let (set, clear) = (draft.set(0), draft.clear(0));
    let parts = [draft.under(not_v0, set), draft.under(v0, clear)];
    let effect = draft.all(&parts);
    draft.operator(yes, effect, 3);
    draft.operator(never, effect, 65_535);
    draft.finish(if goal_is_set { v0 } else { not_v0 })
}

/// A stop by 17 and by 18 after each number of steps, with more behind it.
fn stops_at_each_place(trial: &mut Trial) -> Verdict {
    for goal_is_set in [false, true] {
        let task = toggle(goal_is_set);
        for steps in 0..40 {
            for (stopper, number) in [(1, 18), (2, 17), (3, 17), (65_535, 17)] {
                for behind in [&[][..], &[0], &[1], &[2], &[0, 0, 0], &[2, 1, 0]] {
                    let mut sequence = vec![0; steps];
                    sequence.push(stopper);
                    sequence.extend(behind);
                    let left = agree(trial, (&task, &[0], scratch_of(&task), &sequence))?;
                    let goal = u64::from((steps % 2 == 1) == goal_is_set);
                    let steps = steps as u64;
                    let wanted = vec![steps, 3 * steps, goal, number, steps, 0];
                    same("result", left.result, wanted)?;
                }
            }
        }
    }
    Ok(())
}

fn goal_where_stopped(trial: &mut Trial) -> Verdict {
    let task = toggle(true);
    for (state, sequence, wanted) in [
        ([1], &[][..], [0, 0, 1, 0, 0, 1]),
        ([0], &[], [0, 0, 0, 0, 0, 0]),
        ([1], &[2], [0, 0, 1, 17, 0, 0]),
        ([0], &[1], [0, 0, 0, 18, 0, 0]),
        ([0], &[0, 1], [1, 3, 1, 18, 1, 0]),
        ([0], &[0, 0, 2], [2, 6, 0, 17, 2, 0]),
        ([0], &[0], [1, 3, 1, 0, 0, 1]),
    ] {
        let left = agree(trial, (&task, &state, scratch_of(&task), sequence))?;
        same("result", left.result, wanted.to_vec())?;
    }
    Ok(())
}

fn long_runs(trial: &mut Trial) -> Verdict {
    let mut long = 0;
    for _ in 0..1000 {
        let task = random_task(&mut trial.random);
        let operators = usize::from(task.head.operator_count).max(1);
        let state = generate::state(&mut trial.random, task.tables.initial.len());
        let sequence: Vec<u16> = (0..200)
            .map(|_| trial.random.below(operators) as u16)
            .collect();
        let left = agree(trial, (&task, &state, scratch_of(&task), &sequence))?;
        long += u32::from(left.result[0] > 10);
    }
    same("some are long", long > 50, true)
}

fn longest_run(trial: &mut Trial) -> Verdict {
    let task = examples::costly();
    let scratch = scratch_of(&task);
    let left = agree(trial, (&task, &[], scratch, &[0; 65_535]))?;
    let wanted = vec![65_535, 4_294_836_225, 1, 0, 0, 1];
    same("longest", left.result, wanted)?;
    let mut stops = [0; 65_535];
    for at in [65_534, 65_533, 32_768, 1] {
        stops[at] = 1;
        let left = agree(trial, (&task, &[], scratch, &stops))?;
        let steps = at as u64;
        let wanted = vec![steps, 65_535 * steps, 1, 17, steps, 0];
        same("stopped", left.result, wanted)?;
    }
    let doubled = agree(trial, (&task.at_percent(200), &[], scratch, &[0; 65_535]))?;
    let wanted = vec![65_535, 8_589_672_450, 1, 0, 0, 1];
    same("at 200 percent", doubled.result, wanted)?;
    let toggled = agree(trial, (&toggle(true), &[0], 99, &[0; 65_535]))?;
    same("odd steps", toggled.state, vec![1])
}

/// Each step is rounded by itself.
fn charges(trial: &mut Trial) -> Verdict {
    for (cost, percent, charge) in examples::CHARGES {
        let task = examples::priced(cost, percent);
        for steps in 0..5 {
            let sequence = vec![0; steps];
            let left = agree(trial, (&task, &[], scratch_of(&task), &sequence))?;
            same("charge", left.result[1], steps as u64 * charge)?;
        }
    }
    for percent in 0..=MOST_PERCENT {
        for _ in 0..50 {
            let cost = trial.random.word();
            let task = examples::priced(cost, percent);
            agree(trial, (&task, &[], scratch_of(&task), &[0, 0, 0]))?;
        }
    }
    Ok(())
}

/// 19, even if the first number would stop; no length wraps.
fn too_long(trial: &mut Trial) -> Verdict {
    for task in [examples::costly(), toggle(true)] {
        let state = task.tables.initial.clone();
        for length in [65_536, 65_537, 65_538, 131_071, 131_072, 131_073, 200_000] {
            for first in [0, 1, 2, 65_535] {
                let mut sequence = vec![0; length];
                sequence[0] = first;
                let left = agree(trial, (&task, &state, scratch_of(&task), &sequence))?;
                same("19", left.number, 19)?;
                same("result", left.result, vec![0; 6])?;
            }
        }
    }
    Ok(())
}

fn at_the_limits(trial: &mut Trial) -> Verdict {
    for _ in 0..10 {
        let shape = Shape::largest(&mut trial.random);
        let task = generate::task(&mut trial.random, &shape);
        for _ in 0..5 {
            let state = generate::state(&mut trial.random, 512);
            let sequence: Vec<u16> = (0..20).map(|_| trial.random.below(256) as u16).collect();
            agree(trial, (&task, &state, scratch_of(&task), &sequence))?;
        }
    }
    Ok(())
}

fn scratch_and_states(trial: &mut Trial) -> Verdict {
    for _ in 0..200 {
        let task = random_task(&mut trial.random);
        let (needed, variables) = (scratch_of(&task), task.tables.initial.len());
        let sequence = generate::sequence(&mut trial.random, task.head.operator_count);
        for length in 0..needed + 4 {
            let left = agree(trial, (&task, &task.tables.initial, length, &sequence))?;
            same("14", left.number == 14, length < needed)?;
        }
        for length in 0..variables + 4 {
            let state = generate::state(&mut trial.random, length);
            let left = agree(trial, (&task, &state, needed, &sequence))?;
            same("16", left.number == 16, length != variables)?;
        }
        for at in 0..variables {
            let mut state = generate::state(&mut trial.random, variables);
            state[at] = trial.random.pick(&[2, 3, 127, 128, 255]);
            let left = agree(trial, (&task, &state, needed, &sequence))?;
            same("16", left.number, 16)?;
        }
    }
    Ok(())
}

/// The tables' numbers, then 16, 14, 19; then 17 and 18 as stops.
fn order_of_refusals(trial: &mut Trial) -> Verdict {
    let task = toggle(true);
    let enough = scratch_of(&task);
    let long = vec![1; 65_536];
    let (good, short, high) = (&[1][..], &[][..], &[2][..]);
    for (what, state, scratch, sequence, number, stop) in [
        ("short state first", short, enough - 1, &long[..], 16, 0),
        ("then a byte above 1", high, enough - 1, &long, 16, 0),
        ("then scratch", good, enough - 1, &long, 14, 0),
        ("then the sequence", good, enough, &long, 19, 0),
        ("then 17", good, enough, &[2, 1], 0, 17),
        ("then 18", good, enough, &[1, 2], 0, 18),
    ] {
        let left = agree(trial, (&task, state, scratch, sequence))?;
        same(what, (left.number, left.result[3]), (number, stop))?;
    }
    for damage in damage::damages() {
        let mut task = damage::base();
        (damage.inflict)(&mut task);
        for (state, scratch) in [(&[0; 7][..], 11), (&[2; 7], 11), (&[0; 7], 10), (&[], 0)] {
            for sequence in [&[][..], &[9], &long] {
                let left = agree(trial, (&task, state, scratch, sequence))?;
                same(damage.name, left.number, damage.number)?;
            }
        }
    }
    Ok(())
}

/// A lent result of another length than six is left as it was.
fn other_results(trial: &mut Trial) -> Verdict {
    let task = toggle(true);
    for length in [0, 1, 3, 5, 7, 50] {
        for sequence in [&[][..], &[0, 0, 1], &[9], &vec![0; 65_536]] {
            trial.case();
            let call = (&task, &[1][..], scratch_of(&task), sequence);
            let mut wanted = expected(call);
            wanted.result = vec![77; length];
            let result = Lent::filled(length, 77);
            let left = calls::run(&mut trial.random, call.0, call.1, call.2, call.3, result);
            same("left", left, wanted)?;
        }
    }
    Ok(())
}
