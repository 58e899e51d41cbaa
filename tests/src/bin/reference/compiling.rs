//! Group `compiling`: the finished task's form, demand 3, lent lengths.

use saqwillo_tests::check::check;
use saqwillo_tests::compile::{compile, finished_task, finished_task_slowly};
use saqwillo_tests::examples;
use saqwillo_tests::generate::{self, Shape};
use saqwillo_tests::harness::{dump_task, Test, Trial, Verdict};
use saqwillo_tests::semantics::{acting, formula_values, plain_run};
use saqwillo_tests::task::*;

use crate::same;

pub fn tests() -> Vec<Test> {
    let test = |name, body| Test {
        group: "compiling",
        name,
        body,
    };
    vec![
        test("positive and flat", positive_and_flat),
        test("remembering changes nothing", remembering),
        test("demand 3 on random runs", demand_3),
        test("demand 3 in every state", every_state),
        test("free of conflict", free_of_conflict),
        test("exponential trees", exponential_trees),
        test("at the limits", at_the_limits),
        test("large tasks", large_tasks),
        test("lent lengths", lent_lengths),
        test("order of refusals", order_of_refusals),
    ]
}

/// Set or clear, variable, condition.
pub type Rule = (u16, u16, u16);

/// The rules of a compiled operator in order; an error if it is not flat.
pub fn rules(task: &Task, operator: usize) -> Result<Vec<Rule>, String> {
    let wrong = |row: [u16; 3]| Err(format!("  not flat at effect {row:?}\n{}", dump_task(task)));
    let [_, mut top, ..] = task.operator(operator);
    let mut found = Vec::new();
    while top != 0 {
        let row = task.effect(usize::from(top));
        let (before, rule) = match row[0] {
            effect::BOTH if row[1] != 0 => (row[1], row[2]),
            _ => (0, top),
        };
        let [kind, condition, inner] = task.effect(usize::from(rule));
        let [atom, variable, _] = task.effect(usize::from(inner));
        if kind != effect::UNDER || ![effect::SET, effect::CLEAR].contains(&atom) {
            return wrong([kind, condition, inner]);
        }
        if found.iter().any(|&(a, v, _)| (a, v) == (atom, variable)) {
            return wrong([kind, condition, inner]);
        }
        found.push((atom, variable, condition));
        top = before;
    }
    found.reverse();
    Ok(found)
}

/// The compiled state that corresponds to a source state.
pub fn corresponding(compiled: &Task, state: &[u8]) -> Vec<u8> {
    let twins = compiled.tables.twins.iter();
    let opposite = twins.map(|&original| 1 - state[usize::from(original)]);
    state.iter().copied().chain(opposite).collect()
}

/// All states of so many variables.
pub fn all_states(variables: usize) -> Vec<Vec<u8>> {
    let count = 1u32 << variables;
    let state = |code: u32| (0..variables).map(|v| (code >> v & 1) as u8).collect();
    (0..count).map(state).collect()
}

fn small_task(trial: &mut Trial) -> Task {
    let shape = Shape::small(&mut trial.random, false);
    generate::task(&mut trial.random, &shape)
}

/// A source and its compiled task, within the limits.
fn random_pair(trial: &mut Trial) -> (Task, Task) {
    loop {
        let shape = if trial.random.chance(10) {
            Shape::middle(&mut trial.random, false)
        } else {
            Shape::small(&mut trial.random, false)
        };
        let task = generate::task(&mut trial.random, &shape);
        if let Ok(compiled) = finished_task(&task) {
            return (task, compiled);
        }
    }
}

fn positive_and_flat(trial: &mut Trial) -> Verdict {
    for _ in 0..10_000 {
        trial.case();
        let (task, compiled) = random_pair(trial);
        same("check", check(&compiled.head, &compiled.tables), Ok(()))?;
        let kinds = compiled.tables.formulas.chunks(ROW).map(|row| row[0]);
        let positive = kinds
            .into_iter()
            .all(|kind| [0, 1, 2, 4, 5].contains(&kind));
        same(&dump_task(&task), positive, true)?;
        for i in 0..usize::from(compiled.head.operator_count) {
            rules(&compiled, i)?;
            let [.., cost, percent] = task.operator(i);
            let [.., kept, kept_percent] = compiled.operator(i);
            same("cost, percent", (kept, kept_percent), (cost, percent))?;
        }
        let initial = corresponding(&compiled, &task.tables.initial);
        same("initial", &compiled.tables.initial, &initial)?;
    }
    Ok(())
}

/// The quick builder against one that builds everything anew.
fn remembering(trial: &mut Trial) -> Verdict {
    for _ in 0..10_000 {
        trial.case();
        let task = small_task(trial);
        let quick = finished_task(&task);
        let slow = finished_task_slowly(&task);
        same(&dump_task(&task), quick, slow)?;
    }
    Ok(())
}

/// The same answers from corresponding states, for a whole list.
fn same_runs(task: &Task, compiled: &Task, state: &[u8], sequence: &[u16]) -> Verdict {
    let source = plain_run(task, state, sequence);
    let other = plain_run(compiled, &corresponding(compiled, state), sequence);
    let found = (other.steps, other.cost, other.stop, other.goal);
    let expected = (source.steps, source.cost, source.stop, source.goal);
    let state = corresponding(compiled, &source.state);
    if found == expected && other.state == state {
        return Ok(());
    }
    Err(format!(
        "{}\n  sequence {sequence:?}\n  source {source:?}\n  compiled {other:?}",
        dump_task(task)
    ))
}

fn demand_3(trial: &mut Trial) -> Verdict {
    for _ in 0..10_000 {
        let (task, compiled) = random_pair(trial);
        for _ in 0..4 {
            trial.case();
            let state = generate::state(&mut trial.random, task.tables.initial.len());
            let sequence = generate::sequence(&mut trial.random, task.head.operator_count);
            same_runs(&task, &compiled, &state, &sequence)?;
        }
    }
    Ok(())
}

fn every_state(trial: &mut Trial) -> Verdict {
    for _ in 0..2000 {
        let task = small_task(trial);
        let Ok(compiled) = finished_task(&task) else {
            continue;
        };
        for state in all_states(task.tables.initial.len()) {
            for operator in 0..=task.head.operator_count {
                trial.case();
                same_runs(&task, &compiled, &state, &[operator])?;
            }
        }
    }
    Ok(())
}

/// No compiled operator sets and clears a variable together in a state that
/// corresponds to a source state.
fn free_of_conflict(trial: &mut Trial) -> Verdict {
    for _ in 0..5000 {
        let (task, compiled) = random_pair(trial);
        let state = generate::state(&mut trial.random, task.tables.initial.len());
        let values = formula_values(&compiled, &corresponding(&compiled, &state));
        for i in 0..usize::from(compiled.head.operator_count) {
            trial.case();
            let acts = acting(&compiled, usize::from(compiled.operator(i)[1]), &values);
            let rows = (0..acts.len()).filter(|&row| acts[row]);
            let atoms: Vec<[u16; 3]> = rows.map(|row| compiled.effect(row)).collect();
            let conflict = (0..compiled.head.variables)
                .any(|v| atoms.contains(&[1, v, 0]) && atoms.contains(&[2, v, 0]));
            same(&dump_task(&task), conflict, false)?;
        }
    }
    Ok(())
}

fn exponential_trees(trial: &mut Trial) -> Verdict {
    for depth in [1, 2, 10, 100, 600] {
        for task in [
            examples::doubling_formulas(depth),
            examples::doubling_effects(depth),
        ] {
            trial.case();
            let compiled = finished_task(&task).expect("within the limits");
            let operators = task.head.operator_count;
            for state in all_states(usize::from(task.head.variables)) {
                same_runs(&task, &compiled, &state, &vec![0; usize::from(operators)])?;
            }
        }
    }
    Ok(())
}

/// Each limit reached exactly, and passed by one.
fn at_the_limits(trial: &mut Trial) -> Verdict {
    for (what, task, fits) in [
        ("255 twins", examples::some_twins(255, 255), true),
        ("256 twins", examples::some_twins(256, 256), true),
        ("257 twins", examples::some_twins(257, 257), false),
        ("V 512", examples::some_twins(511, 1), true),
        ("V 513", examples::some_twins(511, 2), false),
        ("V 512 and no twin", examples::some_twins(512, 0), true),
        ("V 512 and a twin", examples::some_twins(512, 1), false),
        ("F 4095", examples::conjunctions(4093), true),
        ("F 4096", examples::conjunctions(4094), true),
        ("F 4097", examples::conjunctions(4095), false),
        ("E 4093", examples::many_rules(&[512, 512, 341]), true),
        ("E 4096", examples::many_rules(&[512, 512, 342]), true),
        (
            "E 4097",
            examples::many_rules(&[512, 512, 341, 1, 1]),
            false,
        ),
        ("E far above", examples::many_rules(&[512; 256]), false),
    ] {
        trial.case();
        same("check", check(&task.head, &task.tables), Ok(()))?;
        same(what, finished_task(&task).is_ok(), fits)?;
    }
    let largest = finished_task(&examples::many_rules(&[512, 512, 342]));
    same("E", largest.map(|task| task.head.effect_count), Ok(4096))?;
    let largest = finished_task(&examples::conjunctions(4094));
    same("F", largest.map(|task| task.head.formula_count), Ok(4096))
}

/// Just enough is enough; one less in any table is 15, with all 0.
fn lent_lengths(trial: &mut Trial) -> Verdict {
    for _ in 0..1000 {
        trial.case();
        let (task, compiled) = random_pair(trial);
        let rows = usize::from(task.head.formula_count) + usize::from(task.head.effect_count);
        let needs = compiled.head.needs();
        let exact = compile(&task, &needs, 2 * rows);
        same(
            "exact",
            (exact.number, exact.tables),
            (0, compiled.tables.clone()),
        )?;
        let tight = compile(&task, &Lengths::default(), 2 * rows - 1);
        same("14 before 15", tight.number, 14)?;
        let mut short = needs;
        match trial.random.below(3) {
            0 => short.formulas -= 1,
            1 => short.effects -= 1,
            _ => short.initial = short.initial.wrapping_sub(1).min(needs.initial),
        }
        let refused = compile(&task, &short, 2 * rows);
        let expected = if short == needs { 0 } else { 15 };
        same("short", refused.number, expected)?;
        if expected == 15 {
            same("zeros", refused.tables, Tables::zeros(&short))?;
        }
    }
    Ok(())
}

/// Hundreds of rows; some keep the limits and some do not.
fn large_tasks(trial: &mut Trial) -> Verdict {
    let (mut finished, mut over) = (0, 0);
    for _ in 0..300 {
        trial.case();
        let shape = Shape::large(&mut trial.random);
        let task = generate::task(&mut trial.random, &shape);
        let Ok(compiled) = finished_task(&task) else {
            over += 1;
            continue;
        };
        finished += 1;
        same("check", check(&compiled.head, &compiled.tables), Ok(()))?;
        for _ in 0..4 {
            let state = generate::state(&mut trial.random, task.tables.initial.len());
            let sequence = generate::sequence(&mut trial.random, task.head.operator_count);
            same_runs(&task, &compiled, &state, &sequence)?;
        }
    }
    same("both kinds", finished > 5 && over > 5, true)
}

/// The tables' own numbers, 13, 14, 15.
fn order_of_refusals(trial: &mut Trial) -> Verdict {
    let source = generate::plain(Head::from_words([2, 0, 3, 2, 1, 0]));
    let mut with_twin = generate::plain(Head::from_words([2, 1, 3, 2, 1, 0]));
    let nothing = Lengths::default();
    let compiled = finished_task(&source).expect("within the limits");
    let needs = compiled.head.needs();
    for (what, task, lent, scratch, expected) in [
        ("13 first", &with_twin, &nothing, 0, 13),
        ("then 14", &source, &nothing, 9, 14),
        ("then 15", &source, &nothing, 10, 15),
        ("none", &source, &needs, 10, 0),
    ] {
        trial.case();
        let outcome = compile(task, lent, scratch);
        same(what, outcome.number, expected)?;
        same("scratch", outcome.scratch, vec![0; scratch])?;
        same("lengths", outcome.tables.lengths(), *lent)?;
    }
    trial.case();
    with_twin.tables.operators[0] = 3;
    let outcome = compile(&with_twin, &nothing, 0);
    same("tables before 13", outcome.number, 12)
}
