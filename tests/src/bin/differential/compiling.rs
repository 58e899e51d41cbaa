//! Group `compiling`: byte-equal tables on worked, random and adversarial
//! tasks.

use saqwillo_tests::by_hand;
use saqwillo_tests::compile::{compile, finished_task, Compiled};
use saqwillo_tests::examples;
use saqwillo_tests::file::LARGEST;
use saqwillo_tests::generate::{self, Shape};
use saqwillo_tests::harness::{dump_task, same, Test, Trial, Verdict};
use saqwillo_tests::print::task_lines;
use saqwillo_tests::random::Random;
use saqwillo_tests::shrink::shrink;
use saqwillo_tests::task::*;

use crate::calls::compiling as calls;

pub fn tests() -> Vec<Test> {
    let test = |name, body| Test {
        group: "compiling",
        name,
        body,
    };
    vec![
        test("tasks compiled by hand", compiled_by_hand),
        test("worked examples", worked_examples),
        test("random tasks", random_tasks),
        test("conflicts", conflicts),
        test("conditions that fold away", folding),
        test("goals that bring the last twins", twins_in_goal),
        test("middle tasks", middle_tasks),
        test("large tasks", large_tasks),
        test("exponential trees", exponential_trees),
    ]
}

/// A compiling as it is called: task, lent lengths, scratch words.
pub type Call<'a> = (&'a Task, &'a Lengths, usize);

/// Both must leave the same; then what they leave.
pub fn agree(trial: &mut Trial, (task, lent, scratch): Call) -> Result<Compiled, String> {
    trial.case();
    let wanted = compile(task, lent, scratch);
    if calls::compile(&mut trial.random, task, lent, scratch) == wanted {
        return Ok(wanted);
    }
    let random = &mut trial.random;
    let least = shrink(task, &mut |task| {
        calls::compile(random, task, lent, scratch) != compile(task, lent, scratch)
    });
    let wanted = compile(&least, lent, scratch);
    let found = calls::compile(&mut trial.random, &least, lent, scratch);
    Err(format!(
        "{}\n  lent {lent:?}, scratch of {scratch}\n  other implementation {}\n{}\n  library {}\n{}\n  same scratch {}",
        dump_task(&least),
        wanted.number,
        dump_answer(&wanted),
        found.number,
        dump_answer(&found),
        wanted.scratch == found.scratch,
    ))
}

fn dump_answer(compiled: &Compiled) -> String {
    dump_task(&Task {
        head: compiled.head,
        tables: compiled.tables.clone(),
    })
}

/// 2 x F + 2 x E, the words of scratch that compiling wants.
pub fn scratch_of(task: &Task) -> usize {
    2 * (usize::from(task.head.formula_count) + usize::from(task.head.effect_count))
}

/// The lengths that the finished task needs, or the largest.
pub fn needs(task: &Task) -> Lengths {
    finished_task(task).map_or(LARGEST, |finished| finished.head.needs())
}

/// Into just enough, and into more; what is more ends as 0.
pub fn agree_both(trial: &mut Trial, task: &Task) -> Result<Compiled, String> {
    let exact = needs(task);
    let more = Lengths {
        initial: exact.initial + trial.random.below(9),
        twins: exact.twins + trial.random.below(9),
        formulas: exact.formulas + trial.random.below(9),
        effects: exact.effects + trial.random.below(9),
        operators: exact.operators + trial.random.below(9),
    };
    let longer = scratch_of(task) + trial.random.below(9);
    agree(trial, (task, &more, longer))?;
    agree(trial, (task, &exact, scratch_of(task)))
}

/// The compiled task of an answer that is no refusal, its tables just as
/// long as needed.
pub fn compiled_task(answer: &Compiled) -> Task {
    Task {
        head: answer.head,
        tables: answer.tables.clone().resized(&answer.head.needs()),
    }
}

fn compiled_by_hand(trial: &mut Trial) -> Verdict {
    for example in by_hand::all() {
        let answer = agree_both(trial, &example.task)?;
        let printed = task_lines(&compiled_task(&answer));
        same(example.rule, printed.as_str(), example.printed)?;
    }
    Ok(())
}

fn worked_examples(trial: &mut Trial) -> Verdict {
    let whole = agree_both(trial, &examples::whole())?;
    let printed = task_lines(&compiled_task(&whole));
    same("whole", printed.as_str(), examples::WHOLE_PRINTED)?;
    for task in [
        examples::smallest(),
        examples::set_and_clear(),
        examples::set_under_other(),
        examples::toggle(),
        examples::formula_over_empty(),
        examples::costly(),
        examples::running(),
        examples::bicycle(),
        examples::flat_effect(),
    ] {
        same("number", agree_both(trial, &task)?.number, 0)?;
    }
    Ok(())
}

fn random_tasks(trial: &mut Trial) -> Verdict {
    for _ in 0..15_000 {
        let shape = Shape::small(&mut trial.random, false);
        let task = generate::task(&mut trial.random, &shape);
        agree_both(trial, &task)?;
    }
    Ok(())
}

fn with_leanings(trial: &mut Trial, rounds: usize, change: fn(&mut Random, &mut Shape)) -> Verdict {
    for _ in 0..rounds {
        let mut shape = Shape::small(&mut trial.random, false);
        change(&mut trial.random, &mut shape);
        let task = generate::task(&mut trial.random, &shape);
        agree_both(trial, &task)?;
    }
    Ok(())
}

/// One or two variables that every effect sets and clears.
fn conflicts(trial: &mut Trial) -> Verdict {
    with_leanings(trial, 8000, |random, shape| {
        shape.variables = random.between(1, 3);
        shape.effects = random.between(4, 16);
        shape.operators = random.between(1, 3);
        shape.conflicts = 100;
        shape.ground = 40;
    })
}

/// Half of the formulas are constants; N is often built and folds.
fn folding(trial: &mut Trial) -> Verdict {
    with_leanings(trial, 8000, |random, shape| {
        shape.variables = random.between(1, 3);
        shape.effects = random.between(3, 12);
        shape.operators = random.between(1, 4);
        shape.constants = random.pick(&[50, 80, 100]);
        shape.leaves = 30;
    })
}

/// Operators that came before get rules for the twins that the goal brings.
fn twins_in_goal(trial: &mut Trial) -> Verdict {
    let mut with_rules = 0;
    for _ in 0..8000 {
        let mut shape = Shape::small(&mut trial.random, false);
        shape.variables += 2;
        shape.effects += 4;
        shape.operators += 1;
        let before = generate::task(&mut trial.random, &shape);
        let effects = agree_both(trial, &before)?.head.effect_count;
        let task = generate::with_twins_in_goal(&mut trial.random, before);
        with_rules += u32::from(agree_both(trial, &task)?.head.effect_count > effects);
    }
    same("enough of them have rules", with_rules > 2000, true)
}

fn middle_tasks(trial: &mut Trial) -> Verdict {
    for _ in 0..1500 {
        let shape = Shape::middle(&mut trial.random, false);
        let task = generate::task(&mut trial.random, &shape);
        agree_both(trial, &task)?;
    }
    Ok(())
}

/// Hundreds of rows; some keep the limits and some do not.
fn large_tasks(trial: &mut Trial) -> Verdict {
    let (mut finished, mut over) = (0, 0);
    for _ in 0..60 {
        let shape = Shape::large(&mut trial.random);
        let task = generate::task(&mut trial.random, &shape);
        match agree_both(trial, &task)?.number {
            0 => finished += 1,
            _ => over += 1,
        }
    }
    same("both kinds", finished > 2 && over > 2, true)
}

/// Shared rows whose trees are exponential, up to the limits and past them.
fn exponential_trees(trial: &mut Trial) -> Verdict {
    let mut over = 0;
    for depth in [1, 2, 3, 10, 100, 400, 1000, 2000, 4000] {
        for task in [
            examples::doubling_formulas(depth),
            examples::doubling_effects(depth),
        ] {
            over += u32::from(agree_both(trial, &task)?.number == 15);
        }
    }
    for depth in 675..690 {
        agree_both(trial, &examples::doubling_formulas(depth))?;
    }
    same("both kinds", over > 0 && over < 10, true)
}
