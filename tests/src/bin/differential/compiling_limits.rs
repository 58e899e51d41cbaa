//! Group `compiling`: limits, lent lengths, scratch, the order of refusals.

use saqwillo_tests::damage;
use saqwillo_tests::examples;
use saqwillo_tests::file::LARGEST;
use saqwillo_tests::generate::{self, Shape};
use saqwillo_tests::harness::{same, Test, Trial, Verdict};
use saqwillo_tests::lent::Lent;
use saqwillo_tests::task::*;

use crate::calls::compiling as calls;
use crate::compiling::{agree, agree_both, compiled_task, needs, scratch_of};

pub fn tests() -> Vec<Test> {
    let test = |name, body| Test {
        group: "compiling",
        name,
        body,
    };
    vec![
        test("at the limits and past them", at_the_limits),
        test("far past the limits", far_past_the_limits),
        test("counts where small tables end", where_small_tables_end),
        test("every lent length", every_lent_length),
        test("lent lengths of large tasks", large_lent_lengths),
        test("scratch lengths", scratch_lengths),
        test("order of refusals", order_of_refusals),
        test("compiled tasks as sources", compiled_sources),
        test("heads of other lengths", other_heads),
    ]
}

/// More than any limit allows, so that only the limits refuse.
const MORE: Lengths = Lengths {
    initial: 2000,
    twins: 2000,
    formulas: ROW * 9000,
    effects: ROW * 400_000,
    operators: OPERATOR_ROW * 300,
};

/// A task of 512 variables whose finished task has exactly so many effect
/// rows, of which the first operators take 1,535 each.
fn effect_rows(rows: usize) -> Task {
    let mut rest = rows - 1;
    let mut counts = Vec::new();
    while rest > 0 {
        let most = MOST_VARIABLES.min((rest + 1) / 3);
        // what is left over must again be a sum of 3 r - 1
        let count = (1..=most).rev().find(|r| {
            let left = rest - (3 * r - 1);
            left == 0 || left == 2 || left > 3
        });
        let count = count.expect("a sum of 3 r - 1");
        counts.push(count as u16);
        rest -= 3 * count - 1;
    }
    examples::many_rules(&counts)
}

fn at_the_limits(trial: &mut Trial) -> Verdict {
    let mut cases = vec![
        ("255 twins", examples::some_twins(255, 255), true),
        ("256 twins", examples::some_twins(256, 256), true),
        ("257 twins", examples::some_twins(257, 257), false),
        ("V 512", examples::some_twins(511, 1), true),
        ("V 513", examples::some_twins(511, 2), false),
        ("V 512, no twin", examples::some_twins(512, 0), true),
        ("V 512, a twin", examples::some_twins(512, 1), false),
        ("V 512 by the goal", examples::last_twins(500, 11), true),
        ("V 513 by the goal", examples::last_twins(500, 12), false),
        ("O 256", examples::many_rules(&[5; MOST_OPERATORS]), true),
    ];
    for rows in 4090..=4096 {
        cases.push(("F", examples::conjunctions(rows), rows <= 4094));
    }
    for rows in 4090..=4103 {
        cases.push(("E", effect_rows(rows), rows <= 4096));
    }
    // 4,096 and 4,097 effect rows, with a rule for the goal's twin in each operator
    let last = examples::rules_and_last_twin;
    cases.push(("E 4,096 by the goal", last(&[500, 500, 363]), true));
    cases.push((
        "E 4,097 by the goal",
        last(&[400, 400, 400, 100, 62]),
        false,
    ));
    for (what, task, fits) in cases {
        let number = if fits { 0 } else { 15 };
        for lent in [needs(&task), LARGEST, MORE] {
            let answer = agree(trial, (&task, &lent, scratch_of(&task)))?;
            same(what, answer.number, number)?;
        }
    }
    Ok(())
}

/// Counts around those up to which compiling has small tables of its own, of
/// the source and of what is built; each with all lent, and exactly enough.
fn where_small_tables_end(trial: &mut Trial) -> Verdict {
    for rows in 508..=515 {
        agree_both(trial, &examples::conjunctions(rows))?;
        agree(trial, (&examples::conjunctions(rows), &LARGEST, 2 * 515))?;
    }
    for (variables, effects, operators) in [
        (127, 511, 63),
        (128, 512, 64),
        (129, 512, 64),
        (128, 513, 64),
        (128, 512, 65),
        (60, 512, 64),
        (60, 513, 64),
    ] {
        for deep in [0, 30, 60, 90] {
            let shape = Shape {
                variables,
                twins: 0,
                formulas: 512,
                effects,
                operators,
                deep,
                constants: 5,
                conflicts: 10,
                ground: 30,
                leaves: 20,
            };
            let task = generate::task(&mut trial.random, &shape);
            agree_both(trial, &task)?;
            agree(trial, (&task, &LARGEST, scratch_of(&task)))?;
        }
    }
    Ok(())
}

/// Effect rows so many that their count passes 16 bits; wrapped, it would
/// keep the limit again.
fn far_past_the_limits(trial: &mut Trial) -> Verdict {
    let counts = [65_536, 65_537, 69_632];
    let mut tasks = counts.map(effect_rows).to_vec();
    tasks.push(examples::many_rules(&[512; MOST_OPERATORS]));
    for task in tasks {
        let answer = agree(trial, (&task, &MORE, scratch_of(&task)))?;
        same("E", answer.number, 15)?;
    }
    Ok(())
}

/// The same lengths with one of them another.
fn with_length(lengths: &Lengths, table: usize, length: usize) -> Lengths {
    let mut list = lengths.list();
    list[table] = length;
    let [initial, twins, formulas, effects, operators] = list;
    Lengths {
        initial,
        twins,
        formulas,
        effects,
        operators,
    }
}

/// Each output table from empty to longer than needed: the room runs out in
/// every phase of the building.
fn every_lent_length(trial: &mut Trial) -> Verdict {
    for _ in 0..250 {
        let shape = Shape::small(&mut trial.random, false);
        let task = generate::task(&mut trial.random, &shape);
        let exact = needs(&task);
        for table in 0..5 {
            for length in 0..exact.list()[table] + 4 {
                let lent = with_length(&exact, table, length);
                let answer = agree(trial, (&task, &lent, scratch_of(&task)))?;
                let fits = lent.cover(&exact);
                same("number", answer.number, if fits { 0 } else { 15 })?;
            }
        }
    }
    Ok(())
}

fn large_lent_lengths(trial: &mut Trial) -> Verdict {
    for _ in 0..25 {
        let mut shape = Shape::large(&mut trial.random);
        shape.formulas = shape.formulas.min(600);
        let task = generate::task(&mut trial.random, &shape);
        let exact = needs(&task);
        for table in 0..5 {
            let needed = exact.list()[table];
            for length in [needed.saturating_sub(1), trial.random.below(needed + 1)] {
                let lent = with_length(&exact, table, length);
                agree(trial, (&task, &lent, scratch_of(&task)))?;
            }
        }
    }
    Ok(())
}

fn scratch_lengths(trial: &mut Trial) -> Verdict {
    for _ in 0..300 {
        let shape = Shape::small(&mut trial.random, false);
        let task = generate::task(&mut trial.random, &shape);
        let needed = scratch_of(&task);
        for length in (0..needed + 4).chain([needed + 5000]) {
            let number = agree(trial, (&task, &needs(&task), length))?.number;
            same("number", number, if length < needed { 14 } else { 0 })?;
        }
    }
    Ok(())
}

/// The tables' own numbers, 13, 14, 15.
fn order_of_refusals(trial: &mut Trial) -> Verdict {
    let nothing = Lengths::default();
    let source = examples::whole();
    let mut twin = source.clone();
    twin.head.twin_count = 1;
    twin.tables.twins = vec![0];
    let enough = scratch_of(&source);
    for (what, task, lent, scratch, number) in [
        ("13 first", &twin, &nothing, 0, 13),
        ("13 with all lent", &twin, &LARGEST, enough, 13),
        ("then 14", &source, &nothing, enough - 1, 14),
        ("14 with all lent", &source, &LARGEST, enough - 1, 14),
        ("then 15", &source, &nothing, enough, 15),
        ("none", &source, &LARGEST, enough, 0),
    ] {
        same(what, agree(trial, (task, lent, scratch))?.number, number)?;
    }
    for damage in damage::damages() {
        for twins in [true, false] {
            let mut task = damage::base();
            if !twins && damage.number != 9 && damage.name != "twins short" {
                task.head.twin_count = 0;
            }
            (damage.inflict)(&mut task);
            for (lent, scratch) in [(&nothing, 0), (&nothing, 99), (&LARGEST, 0), (&LARGEST, 99)] {
                let number = agree(trial, (&task, lent, scratch))?.number;
                same(damage.name, number, damage.number)?;
            }
        }
    }
    Ok(())
}

/// A compiled task has twins: 13. With its twins taken for variables it
/// compiles again.
fn compiled_sources(trial: &mut Trial) -> Verdict {
    for _ in 0..2000 {
        let shape = Shape::small(&mut trial.random, false);
        let task = generate::task(&mut trial.random, &shape);
        let answer = agree(trial, (&task, &needs(&task), scratch_of(&task)))?;
        let mut again = compiled_task(&answer);
        let with_twins = again.head.twin_count > 0;
        let number = agree(trial, (&again, &LARGEST, scratch_of(&again)))?.number;
        same("13", number, if with_twins { 13 } else { 0 })?;
        again.head.twin_count = 0;
        let lent = needs(&again);
        let number = agree(trial, (&again, &lent, scratch_of(&again)))?.number;
        same("again", number, 0)?;
    }
    Ok(())
}

/// A lent head of another length than six is left as it was.
fn other_heads(trial: &mut Trial) -> Verdict {
    let task = examples::whole();
    for length in [0, 1, 5, 7, 8, 300] {
        for scratch in [scratch_of(&task), 0] {
            let lent = needs(&task);
            let wanted = agree(trial, (&task, &lent, scratch))?;
            let head = Lent::filled(length, 0xabcd);
            let (found, head) = calls::compile_into(&mut trial.random, &task, &lent, scratch, head);
            same("number", found.number, wanted.number)?;
            same("tables", found.tables, wanted.tables)?;
            same("scratch", found.scratch, wanted.scratch)?;
            same("head", head, vec![0xabcd; length])?;
        }
    }
    Ok(())
}
