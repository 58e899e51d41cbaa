//! Group `best`: the quickest forms give what the plain ones give.

use saqwillo_tests::best::{self, compile, read, run, write, Room, Rows};
use saqwillo_tests::damage;
use saqwillo_tests::examples;
use saqwillo_tests::file::{self, file_of, LARGEST};
use saqwillo_tests::generate::{self, Shape};
use saqwillo_tests::harness::{dump_task, Test, Trial, Verdict};
use saqwillo_tests::print;
use saqwillo_tests::semantics;
use saqwillo_tests::task::*;

use crate::same;

pub fn tests() -> Vec<Test> {
    let test = |name, body| Test {
        group: "best",
        name,
        body,
    };
    vec![
        test("reading", reading),
        test("writing", writing),
        test("running", running),
        test("compiling", compiling),
        test("printing", printing),
    ]
}

fn random_task(trial: &mut Trial, with_twins: bool) -> Task {
    let shape = match trial.random.below(20) {
        0 => Shape::middle(&mut trial.random, with_twins),
        _ => Shape::small(&mut trial.random, with_twins),
    };
    let mut task = generate::task(&mut trial.random, &shape);
    if trial.random.chance(30) {
        damage::any(&mut trial.random, &mut task);
    }
    task
}

fn dirty(lengths: &Lengths) -> Tables {
    let mut tables = Tables::zeros(lengths);
    tables.initial.fill(7);
    for table in tables.word_tables() {
        table.fill(7);
    }
    tables
}

fn reading(trial: &mut Trial) -> Verdict {
    for _ in 0..20_000 {
        trial.case();
        let shape = Shape::small(&mut trial.random, true);
        let task = generate::task(&mut trial.random, &shape);
        let mut file = file_of(&task.head, &task.tables);
        if trial.random.chance(50) {
            damage::file(&mut trial.random, &mut file);
        }
        let lent = task.head.needs();
        let plain = file::read(&file, &lent);
        let mut tables = dirty(&lent);
        let answer = read::read(&file, Room::of(&mut tables));
        let wanted = match plain.number {
            0 => Ok(plain.head),
            number => Err(number),
        };
        same("reading", (answer, tables), (wanted, plain.tables))?;
    }
    Ok(())
}

fn writing(trial: &mut Trial) -> Verdict {
    for _ in 0..20_000 {
        trial.case();
        let task = random_task(trial, true);
        let length = trial.random.below(200);
        let plain = file::write(&task.head, &task.tables, length);
        let mut output = vec![7; length];
        let answer = write::write(&Rows::of(&task), &mut output);
        let wanted = match plain.number {
            0 => Ok(plain.length),
            number => Err(number),
        };
        same("writing", (answer, output), (wanted, plain.output))?;
    }
    Ok(())
}

fn running(trial: &mut Trial) -> Verdict {
    for _ in 0..20_000 {
        trial.case();
        let task = random_task(trial, true);
        let mut state = generate::state(&mut trial.random, task.tables.initial.len());
        let sequence = generate::sequence(&mut trial.random, task.head.operator_count);
        let plain = semantics::run(&task, &state, 200, &sequence);
        let mut scratch = vec![7; 200];
        let answer = run::run(&Rows::of(&task), &mut state, &sequence, &mut scratch);
        let wanted = match plain.number {
            0 => Ok(run::Ran {
                steps: plain.steps,
                cost: plain.cost,
                goal: plain.goal,
                stop: plain.stop,
            }),
            number => Err(number),
        };
        let found = (answer, state, scratch);
        same(
            &dump_task(&task),
            found,
            (wanted, plain.state, plain.scratch),
        )?;
    }
    Ok(())
}

fn same_compiled(trial: &mut Trial, task: &Task, lent: &Lengths) -> Verdict {
    for form in compile::FORMS {
        trial.case();
        same_in_form(form, task, lent)?;
    }
    Ok(())
}

fn same_in_form(form: compile::Form, task: &Task, lent: &Lengths) -> Verdict {
    let rows = usize::from(task.head.formula_count) + usize::from(task.head.effect_count);
    let mut scratch = vec![7; 2 * rows];
    let plain = saqwillo_tests::compile::compile(task, lent, scratch.len());
    let mut tables = dirty(lent);
    let answer = compile::compile(form, &Rows::of(task), Room::of(&mut tables), &mut scratch);
    let wanted = match plain.number {
        0 => Ok(plain.head),
        number => Err(number),
    };
    same("head", answer, wanted)?;
    same("tables", tables == plain.tables, true)?;
    same("scratch", scratch, plain.scratch)
}

fn compiling(trial: &mut Trial) -> Verdict {
    for round in 0..10_000 {
        let task = random_task(trial, round % 50 == 0);
        same_compiled(trial, &task, &LARGEST)?;
        let short = Lengths {
            initial: trial.random.below(20),
            twins: trial.random.below(9),
            formulas: trial.random.below(99),
            effects: trial.random.below(199),
            operators: trial.random.below(20),
        };
        same_compiled(trial, &task, &short)?;
    }
    for _ in 0..40 {
        let shape = Shape::large(&mut trial.random);
        let task = generate::task(&mut trial.random, &shape);
        same_compiled(trial, &task, &LARGEST)?;
    }
    for task in [
        examples::doubling_formulas(600),
        examples::doubling_effects(600),
        examples::conjunctions(4094),
        examples::many_rules(&[512, 512, 342]),
    ] {
        same_compiled(trial, &task, &LARGEST)?;
    }
    Ok(())
}

fn printing(trial: &mut Trial) -> Verdict {
    for _ in 0..1000 {
        trial.case();
        let shape = Shape::small(&mut trial.random, true);
        let task = generate::task(&mut trial.random, &shape);
        let file = match trial.random.below(20) {
            0 => trial.random.number().to_le_bytes().to_vec(),
            _ => file_of(&task.head, &task.tables),
        };
        let plain = print::program(&file).into_bytes();
        same("printing", best::print::program(&file), plain)?;
    }
    Ok(())
}
