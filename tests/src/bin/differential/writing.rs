//! Group `writing`: every output length, and the tables' refusals before 20.

use saqwillo_tests::damage;
use saqwillo_tests::entries::MOST_FILE_BYTES;
use saqwillo_tests::file::{file_of, write};
use saqwillo_tests::generate::{self, Shape};
use saqwillo_tests::harness::{dump_task, same, Test, Trial, Verdict};
use saqwillo_tests::shrink::shrink;
use saqwillo_tests::task::*;

use crate::calls::reading as calls;
use crate::reading::small_task;

pub fn tests() -> Vec<Test> {
    let test = |name, body| Test {
        group: "writing",
        name,
        body,
    };
    vec![
        test("every output length", every_length),
        test("each refusal and 20", refusals),
        test("random damage", random_damage),
        test("words behind the count", behind_the_count),
        test("at the limits", at_the_limits),
    ]
}

/// Both must leave the same; then the number.
fn agree(trial: &mut Trial, task: &Task, length: usize) -> Result<u16, String> {
    trial.case();
    let expected = write(&task.head, &task.tables, length);
    let found = calls::write(&mut trial.random, &task.head, &task.tables, length);
    if found == expected {
        return Ok(expected.number);
    }
    let random = &mut trial.random;
    let least = shrink(task, &mut |task| {
        write(&task.head, &task.tables, length)
            != calls::write(random, &task.head, &task.tables, length)
    });
    let expected = write(&least.head, &least.tables, length);
    let found = calls::write(&mut trial.random, &least.head, &least.tables, length);
    Err(format!(
        "{}\n  output of {length}\n  other implementation {expected:?}\n  library {found:?}",
        dump_task(&least)
    ))
}

fn every_length(trial: &mut Trial) -> Verdict {
    for _ in 0..300 {
        let task = small_task(&mut trial.random);
        let needed = file_of(&task.head, &task.tables).len();
        for length in 0..needed + 4 {
            let expected = if length < needed { 20 } else { 0 };
            same("number", agree(trial, &task, length)?, expected)?;
        }
        let long = needed + trial.random.below(5000);
        same("long", agree(trial, &task, long)?, 0)?;
    }
    Ok(())
}

fn refusals(trial: &mut Trial) -> Verdict {
    let needed = file_of(&damage::base().head, &damage::base().tables).len();
    for damage in damage::damages() {
        let mut task = damage::base();
        (damage.inflict)(&mut task);
        for length in [0, 1, needed - 1, needed, needed + 1, 1000] {
            let number = agree(trial, &task, length)?;
            same(damage.name, number, damage.number)?;
        }
    }
    Ok(())
}

fn random_damage(trial: &mut Trial) -> Verdict {
    for _ in 0..20_000 {
        let mut task = small_task(&mut trial.random);
        let needed = file_of(&task.head, &task.tables).len();
        damage::any(&mut trial.random, &mut task);
        let length = (needed + 8).saturating_sub(trial.random.below(16));
        agree(trial, &task, length)?;
    }
    Ok(())
}

/// What stands behind the counts is not written.
fn behind_the_count(trial: &mut Trial) -> Verdict {
    for _ in 0..3000 {
        let mut task = small_task(&mut trial.random);
        let needed = file_of(&task.head, &task.tables).len();
        for table in task.tables.word_tables() {
            let count = trial.random.below(20);
            table.extend((0..count).map(|_| trial.random.word()));
        }
        let count = trial.random.below(20);
        let initial = &mut task.tables.initial;
        initial.extend((0..count).map(|_| trial.random.byte()));
        same("number", agree(trial, &task, needed)?, 0)?;
        same("short", agree(trial, &task, needed - 1)?, 20)?;
    }
    Ok(())
}

fn at_the_limits(trial: &mut Trial) -> Verdict {
    for _ in 0..20 {
        let shape = Shape::largest(&mut trial.random);
        let task = generate::task(&mut trial.random, &shape);
        let needed = file_of(&task.head, &task.tables).len();
        for length in [needed - 1, needed, needed + 1, MOST_FILE_BYTES] {
            agree(trial, &task, length)?;
        }
    }
    Ok(())
}
