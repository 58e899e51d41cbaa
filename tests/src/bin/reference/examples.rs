//! Group `examples`: 01's "Sheets to try", and the examples of 000 to 002.

use saqwillo_tests::by_hand;
use saqwillo_tests::check::{check, number};
use saqwillo_tests::compile::finished_task;
use saqwillo_tests::damage;
use saqwillo_tests::examples;
use saqwillo_tests::file::{file_of, read_task, LARGEST};
use saqwillo_tests::generate::plain;
use saqwillo_tests::harness::{Test, Trial, Verdict};
use saqwillo_tests::print::program;
use saqwillo_tests::semantics::{formula_values, run};
use saqwillo_tests::task::*;

use crate::compiling::{all_states, corresponding, rules, Rule};
use crate::same;

pub fn tests() -> Vec<Test> {
    let test = |name, body| Test {
        group: "examples",
        name,
        body,
    };
    vec![
        test("whole example", whole),
        test("smallest file", smallest),
        test("checks", checks),
        test("conditions of rules", conditions),
        test("compiled by hand", compiled_by_hand),
        test("longest run", longest_run),
        test("running example", running),
        test("bicycle", bicycle),
        test("flat effect", flat_effect),
        test("effect normal form", effect_normal_form),
        test("refusals printed", refusals_printed),
    ]
}

fn finished(task: &Task) -> Task {
    finished_task(task).expect("within the limits")
}

fn whole(trial: &mut Trial) -> Verdict {
    trial.case();
    let task = examples::whole();
    let printed = program(&file_of(&task.head, &task.tables));
    same("printed", printed.as_str(), examples::WHOLE_PRINTED)
}

fn smallest(trial: &mut Trial) -> Verdict {
    trial.case();
    let task = examples::smallest();
    let file = file_of(&task.head, &task.tables);
    same("file", &file[..], &examples::SMALLEST_FILE[..])?;
    same("task", read_task(&file, &LARGEST), Ok(task.clone()))?;
    let printed = program(&file);
    same(
        "printed",
        printed.as_str(),
        "t 0 0 2 1 0 1\ni\nf 0 0 0 0\nf 1 1 0 0\ne 0 0 0 0\n",
    )?;
    let outcome = run(&task, &[], 1, &[]);
    same("plan", (outcome.is_plan(), outcome.cost), (true, 0))
}

fn checks(trial: &mut Trial) -> Verdict {
    let mut look = |what: &str, task: &Task, expected: u16| {
        trial.case();
        same(what, number(check(&task.head, &task.tables)), expected)
    };
    let counts = |words| plain(Head::from_words(words));
    look("F 0", &counts([0, 0, 0, 0, 0, 0]), 6)?;
    look("goal F", &counts([0, 0, 3, 0, 0, 3]), 7)?;
    look("goal F - 1", &counts([0, 0, 3, 0, 0, 2]), 0)?;
    look("V 512", &counts([512, 0, 1, 0, 0, 0]), 0)?;
    look("V 513", &counts([513, 0, 1, 0, 0, 0]), 6)?;
    let mut task = counts([0, 0, 4, 0, 0, 0]);
    task.set_formula(3, [formula::NOT, 3, 0]);
    look("not 3 in row 3", &task, 10)?;
    task.set_formula(3, [formula::NOT, 2, 0]);
    look("not 2 in row 3", &task, 0)?;
    look("base of the damages", &damage::base(), 0)?;
    for (what, rows, expected) in [
        ("percent 0", [[0, 0, 0, 0], [0, 0, 0, 100]], 0),
        ("percent 200", [[0, 0, 9, 200], [0, 0, 0, 100]], 0),
        ("percent 201", [[0, 0, 0, 100], [0, 0, 0, 201]], 24),
        ("12 first in a row", [[1, 0, 0, 201], [0, 0, 0, 100]], 12),
        ("24 in an earlier row", [[0, 0, 0, 201], [1, 0, 0, 100]], 24),
        (
            "12 in an earlier row",
            [[0, 1, 0, 0], [0, 0, 0, 65_535]],
            12,
        ),
    ] {
        let mut task = counts([0, 0, 1, 1, 2, 0]);
        task.tables.operators = rows.concat();
        look(what, &task, expected)?;
    }
    for damage in damage::damages() {
        let mut task = damage::base();
        (damage.inflict)(&mut task);
        look(damage.name, &task, damage.number)?;
    }
    Ok(())
}

/// The rules' conditions that 01 names.
fn conditions(trial: &mut Trial) -> Verdict {
    trial.case();
    let task = finished(&examples::set_and_clear());
    same("set and clear", rules(&task, 0)?, vec![(effect::SET, 0, 1)])?;
    let outcome = run(&examples::set_and_clear(), &[0], 4, &[0]);
    same("set wins", outcome.state, vec![1])?;

    trial.case();
    let task = finished(&examples::set_under_other());
    let all = rules(&task, 0)?;
    let clear = condition_of(&all, (effect::CLEAR, 1));
    same("clear under the twin", task.formula(clear), [2, 2, 0])?;
    same("its original", task.tables.twins[0], 0)?;

    trial.case();
    let task = finished(&examples::toggle());
    let all = rules(&task, 0)?;
    let [kind, a, b] = task.formula(condition_of(&all, (effect::CLEAR, 0)));
    same("v and v", (kind, a), (formula::AND, b))?;
    same("v", task.formula(usize::from(a)), [2, 0, 0])?;

    trial.case();
    let task = finished(&examples::formula_over_empty());
    same("builds nothing", task.head.words(), [1, 0, 2, 1, 1, 1])
}

fn compiled_by_hand(trial: &mut Trial) -> Verdict {
    for example in by_hand::all() {
        trial.case();
        let file = file_of(&example.task.head, &example.task.tables);
        same(example.rule, program(&file).as_str(), example.printed)?;
    }
    Ok(())
}

fn condition_of(all: &[Rule], atom: (u16, u16)) -> usize {
    let found = all.iter().find(|rule| (rule.0, rule.1) == atom);
    usize::from(found.expect("a rule for the atom").2)
}

fn longest_run(trial: &mut Trial) -> Verdict {
    trial.case();
    let task = examples::costly();
    let mut sequence = vec![0; 65_535];
    let outcome = run(&task, &[], 2, &sequence);
    let found = (outcome.number, outcome.steps, outcome.cost);
    same("65,535 steps", found, (0, 65_535, 4_294_836_225))?;
    let doubled = run(&task.clone().at_percent(200), &[], 2, &sequence);
    same("at 200 percent", doubled.cost, 8_589_672_450)?;
    sequence.push(0);
    same("65,536 steps", run(&task, &[], 2, &sequence).number, 19)?;
    sequence[0] = 1;
    same("19 before 17", run(&task, &[], 2, &sequence).number, 19)
}

fn running(trial: &mut Trial) -> Verdict {
    let task = examples::running();
    let compiled = finished(&task);
    for (plan, good) in [
        (vec![0, 2, 0, 4], true),
        (vec![1, 3, 1, 4], true),
        (vec![0, 2, 4], false),
    ] {
        trial.case();
        let source = run(&task, &task.tables.initial, 999, &plan);
        same("plan", source.is_plan(), good)?;
        let cost = if good { 12 } else { 7 };
        same("cost", source.cost, cost)?;
        let other = run(&compiled, &compiled.tables.initial, 9999, &plan);
        same("compiled", (other.is_plan(), other.cost), (good, cost))?;
    }
    trial.case();
    let stopped = run(&task, &task.tables.initial, 999, &[2]);
    same("stopped", (stopped.stop, stopped.steps), (Some(18), 0))
}

/// One twin, of "locked"; 002's operators, goal and complementary effects.
fn bicycle(trial: &mut Trial) -> Verdict {
    trial.case();
    let task = examples::bicycle();
    let compiled = finished(&task);
    same("V and W", &compiled.head.words()[..2], &[6, 1])?;
    same("original", compiled.tables.twins[0], 4)?;
    same("initial", &compiled.tables.initial[..], &[1, 0, 0, 1, 1, 0])?;
    let atoms = |operator| -> Result<Vec<(u16, u16)>, String> {
        let all = rules(&compiled, operator)?;
        Ok(all.into_iter().map(|(kind, v, _)| (kind, v)).collect())
    };
    let (set, clear) = (effect::SET, effect::CLEAR);
    same("ride", atoms(0)?, vec![(clear, 0), (set, 1)])?;
    same("unlock", atoms(1)?, vec![(clear, 4), (set, 5)])?;
    same("lock", atoms(2)?, vec![(set, 4), (clear, 5)])?;
    same("lecture", atoms(3)?, vec![(set, 2), (clear, 3)])?;
    let outcome = run(&compiled, &compiled.tables.initial, 999, &[1, 0, 2, 3]);
    same("plan", outcome.is_plan(), true)
}

/// 000's flat, conflict-free effect, in every state.
fn flat_effect(trial: &mut Trial) -> Verdict {
    let task = examples::flat_effect();
    let compiled = finished(&task);
    let all = rules(&compiled, 0)?;
    for state in all_states(4) {
        trial.case();
        let [a, b, c] = [0, 1, 2].map(|v| state[v] == 1);
        let values = formula_values(&compiled, &corresponding(&compiled, &state));
        let holds = |atom| values[condition_of(&all, atom)];
        same("c", holds((effect::SET, 2)), true)?;
        same("not b", holds((effect::CLEAR, 1)), a && !c)?;
        same("b", holds((effect::SET, 1)), a && c)?;
        same("not d", holds((effect::CLEAR, 3)), a && c)?;
        same("not a", holds((effect::CLEAR, 0)), !b || (a && c))?;
    }
    Ok(())
}

/// 001's effect normal form, in every state.
fn effect_normal_form(trial: &mut Trial) -> Verdict {
    let task = examples::effect_normal_form();
    let compiled = finished(&task);
    let all = rules(&compiled, 0)?;
    for state in all_states(5) {
        trial.case();
        let [a, b, c] = [0, 1, 2].map(|v| state[v] == 1);
        let values = formula_values(&compiled, &corresponding(&compiled, &state));
        let holds = |atom| values[condition_of(&all, atom)];
        same("b", holds((effect::SET, 1)), a)?;
        same("not d", holds((effect::CLEAR, 3)), a && c)?;
        same("e", holds((effect::SET, 4)), !b || (a && c))?;
    }
    Ok(())
}

fn refusals_printed(trial: &mut Trial) -> Verdict {
    for (input, expected) in [
        (&[][..], "r 1\n"),
        (&[0xff], "r 2\n"),
        (&[0x04, 0x00, 0x00], "r 3\n"),
        (&[0x04, 0x01, 0x00, 0x10, 0x00], "r 4\n"),
        (&[0x00], "r 6\n"),
        (&[0x24, 0x01, 0x00, 0x01, 0x00], "r 7\n"),
        (&[0x04, 0x01, 0x00, 0x80], "r 10\n"),
        (&[0x1c, 1, 0, 1, 0, 1, 0, 0x10, 0, 0x08, 201, 0], "r 24\n"),
    ] {
        trial.case();
        same("printed", program(input).as_str(), expected)?;
    }
    Ok(())
}
