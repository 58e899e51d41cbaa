//! Group `compiling`: operators that come to one core of effect rows, with
//! more rows to keep for the next operator than there is room for.

use saqwillo_tests::file::LARGEST;
use saqwillo_tests::harness::{same, Test, Trial, Verdict};
use saqwillo_tests::random::Random;
use saqwillo_tests::shared_core::{SharedCore, FOUND_CHAIN, FOUND_NET};
use saqwillo_tests::task::*;

use crate::compiling::{agree, agree_both, scratch_of};

pub fn tests() -> Vec<Test> {
    let test = |name, body| Test {
        group: "compiling",
        name,
        body,
    };
    vec![
        test("slow files found by a search", found),
        test("operators over one core", random_cores),
    ]
}

fn found(trial: &mut Trial) -> Verdict {
    for core in [FOUND_CHAIN, FOUND_NET] {
        let task = core.task();
        let answer = agree(trial, (&task, &LARGEST, scratch_of(&task)))?;
        same("number", answer.number, 0)?;
    }
    Ok(())
}

/// Variables and effects, on both sides of the counts at which compiling takes
/// other tables of its own, and how many tasks.
const COUNTS: [(usize, usize, usize); 6] = [
    (40, 512, 100),
    (128, 512, 100),
    (40, 513, 100),
    (512, 1024, 50),
    (96, 2048, 20),
    (97, 2048, 20),
];

fn random_cores(trial: &mut Trial) -> Verdict {
    let (mut tried, mut with_rules) = (0, 0);
    for (variables, effects, tasks) in COUNTS {
        for _ in 0..tasks {
            let mut task = random_core(&mut trial.random, variables, effects).task();
            let_some_through(&mut trial.random, &mut task);
            let answer = agree_both(trial, &task)?;
            tried += 1;
            with_rules += u32::from(answer.head.effect_count > 1);
        }
    }
    same("enough of them have rules", 3 * with_rules > tried, true)
}

/// A quarter of the effects at most for what the last operator enters, a
/// quarter for the others, a sixth for the atoms: the rest is the core.
fn random_core(random: &mut Random, variables: usize, effects: usize) -> SharedCore {
    let entered = random.between(1, 4);
    SharedCore {
        variables,
        atoms: random.between(1, effects / 12),
        halved: random.chance(50),
        conditions: random.below(4),
        others: random.pick(&[5, 500]),
        effects,
        operators: random.between(2, effects / 24),
        entered,
        entered_last: random.pick(&[entered, effects / 4]),
        own_when: random.chance(50),
        left: random.pick(&[1, 12, 60]),
        right: random.pick(&[1, 12, 60, 500, 2000]),
        whens: random.pick(&[0, 1, 10]),
        idle_whens: random.pick(&[0, 0, 30]),
        near_the_top: random.pick(&[20, 50, 100]),
        seed: random.number(),
    }
}

/// Some operators have their effect under another condition than false: those
/// have rules.
fn let_some_through(random: &mut Random, task: &mut Task) {
    for i in 0..usize::from(task.head.operator_count) {
        let [_, root, ..] = task.operator(i);
        let [kind, _, inner] = task.effect(usize::from(root));
        if random.chance(10) {
            let condition = random.below(usize::from(task.head.formula_count)) as u16;
            task.set_effect(usize::from(root), [kind, condition, inner]);
        }
    }
}
