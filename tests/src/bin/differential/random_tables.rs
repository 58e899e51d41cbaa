//! Group `tables`: random valid and damaged tables.

use saqwillo_tests::damage;
use saqwillo_tests::generate::{self, Shape};
use saqwillo_tests::harness::{Test, Trial, Verdict};
use saqwillo_tests::task::Task;

use crate::tables::{agree, expect};

pub fn tests() -> Vec<Test> {
    let test = |name, body| Test {
        group: "tables",
        name,
        body,
    };
    vec![
        test("random valid tables", random_valid),
        test("random tables at the limits", random_largest),
        test("random damage", random_damage),
        test("random damage at the limits", random_damage_largest),
    ]
}

/// A small task; every twentieth is larger.
fn random_task(trial: &mut Trial, round: usize) -> Task {
    let shape = if round.is_multiple_of(20) {
        Shape::middle(&mut trial.random, true)
    } else {
        Shape::small(&mut trial.random, true)
    };
    generate::task(&mut trial.random, &shape)
}

fn random_valid(trial: &mut Trial) -> Verdict {
    for round in 0..40_000 {
        let task = random_task(trial, round);
        expect(trial, &task, 0, "a valid task")?;
    }
    Ok(())
}

fn random_largest(trial: &mut Trial) -> Verdict {
    for _ in 0..20 {
        let shape = Shape::largest(&mut trial.random);
        let task = generate::task(&mut trial.random, &shape);
        expect(trial, &task, 0, "a valid task at the limits")?;
    }
    Ok(())
}

fn random_damage(trial: &mut Trial) -> Verdict {
    for round in 0..30_000 {
        let task = random_task(trial, round);
        for _ in 0..6 {
            let mut damaged = task.clone();
            damage::any(&mut trial.random, &mut damaged);
            agree(trial, &damaged)?;
            damage::any(&mut trial.random, &mut damaged);
            agree(trial, &damaged)?;
        }
    }
    Ok(())
}

fn random_damage_largest(trial: &mut Trial) -> Verdict {
    for _ in 0..10 {
        let shape = Shape::largest(&mut trial.random);
        let task = generate::task(&mut trial.random, &shape);
        for _ in 0..50 {
            let mut damaged = task.clone();
            damage::any(&mut trial.random, &mut damaged);
            agree(trial, &damaged)?;
        }
    }
    Ok(())
}
