//! Group `operator_records`: one percent of a list of operators changed.

use saqwillo_tests::generate::{self, Shape};
use saqwillo_tests::harness::{Test, Trial, Verdict};
use saqwillo_tests::operator_records::set_percent;
use saqwillo_tests::semantics::{charge, plain_run};

use crate::same;

pub fn tests() -> Vec<Test> {
    let test = |name, body| Test {
        group: "operator_records",
        name,
        body,
    };
    vec![
        test("by hand", by_hand),
        test("what a run is charged", charged),
    ]
}

/// 17, then 24; else one word.
fn by_hand(trial: &mut Trial) -> Verdict {
    let list = [1, 2, 3, 100, 9, 9, 9, 65_535];
    for (number, percent, refusal, changed) in [
        (0, 0, 0, [1, 2, 3, 0, 9, 9, 9, 65_535]),
        (0, 100, 0, list),
        (1, 200, 0, [1, 2, 3, 100, 9, 9, 9, 200]),
        (1, 201, 24, list),
        (2, 50, 17, list),
        (2, 201, 17, list),
        (65_535, 65_535, 17, list),
    ] {
        trial.case();
        let left = set_percent(&list, number, percent);
        let found = (left.number, &left.operators[..]);
        same(
            &format!("{number} to {percent}"),
            found,
            (refusal, &changed),
        )?;
    }
    trial.case();
    same("no list", set_percent(&[], 0, 100).number, 17)
}

/// A run takes the changed charge where it took the old one.
fn charged(trial: &mut Trial) -> Verdict {
    for _ in 0..10_000 {
        trial.case();
        let shape = Shape::small(&mut trial.random, true);
        let mut task = generate::task(&mut trial.random, &shape);
        let count = task.head.operator_count;
        let sequence = generate::sequence(&mut trial.random, count);
        let before = plain_run(&task, &task.tables.initial, &sequence);
        let number = trial.random.below(usize::from(count) + 1) as u16;
        let percent = generate::percent(&mut trial.random);
        let left = set_percent(&task.tables.operators, number, percent);
        same("17", left.number, if number < count { 0 } else { 17 })?;
        let done = &sequence[..before.steps as usize];
        let times = done.iter().filter(|&&step| step == number).count() as u128;
        let mut cost = before.cost;
        if times > 0 {
            let [.., price, old] = task.operator(usize::from(number));
            cost += times * u128::from(charge(price, percent));
            cost -= times * u128::from(charge(price, old));
        }
        task.tables.operators = left.operators;
        let after = plain_run(&task, &task.tables.initial, &sequence);
        same("cost", after.cost, cost)?;
        let found = (after.state, after.steps, after.stop, after.goal);
        same(
            "the rest",
            found,
            (before.state, before.steps, before.stop, before.goal),
        )?;
    }
    Ok(())
}
