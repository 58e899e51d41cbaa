//! Group `tables`: limits, lengths, competing refusals.

use saqwillo_tests::check::{check, number};
use saqwillo_tests::damage;
use saqwillo_tests::generate::{self, Shape};
use saqwillo_tests::harness::{dump_task, Test, Trial, Verdict};
use saqwillo_tests::shrink::shrink;
use saqwillo_tests::task::{Head, Task};

use crate::calls;

pub fn tests() -> Vec<Test> {
    let test = |name, body| Test {
        group: "tables",
        name,
        body,
    };
    vec![
        test("limits", limits),
        test("twin limit", twin_limit),
        test("largest words in the head", largest_head_words),
        test("goal", goal),
        test("lengths", lengths),
        test("words behind the count", behind_the_count),
        test("each refusal alone", refusals_alone),
        test("pairs of refusals", refusal_pairs),
    ]
}

/// Both implementations must answer the same.
pub fn agree(trial: &mut Trial, task: &Task) -> Verdict {
    trial.case();
    let differ = |task: &Task| ours(task) != theirs(task);
    if !differ(task) {
        return Ok(());
    }
    let least = shrink(task, &mut |task| differ(task));
    let (ours, theirs) = (ours(&least), theirs(&least));
    let dump = dump_task(&least);
    Err(format!(
        "{dump}\n  other implementation {ours}, library {theirs}"
    ))
}

/// Both must answer `expected`.
pub fn expect(trial: &mut Trial, task: &Task, expected: u16, what: &str) -> Verdict {
    let ours = ours(task);
    if ours != expected {
        trial.case();
        let dump = dump_task(task);
        return Err(format!(
            "{dump}\n  {what}: expected {expected}, other implementation {ours}"
        ));
    }
    agree(trial, task)
        .map_err(|dump| format!("{dump}\n  {what}: made smaller from a case of {expected}"))
}

fn ours(task: &Task) -> u16 {
    number(check(&task.head, &task.tables))
}

fn theirs(task: &Task) -> u16 {
    calls::check(&task.head, &task.tables)
}

fn plain(words: [u16; 6]) -> Task {
    generate::plain(Head::from_words(words))
}

fn limits(trial: &mut Trial) -> Verdict {
    for v in [0, 1, 2, 255, 256, 510, 511, 512, 513, 514, 1024, 65_535] {
        let expected = if v <= 512 { 0 } else { 6 };
        expect(trial, &plain([v, 0, 1, 0, 0, 0]), expected, "V")?;
    }
    for count in [0, 1, 2, 255, 256, 4095, 4096, 4097, 8192, 65_535] {
        let formulas = if (1..=4096).contains(&count) { 0 } else { 6 };
        expect(trial, &plain([0, 0, count, 0, 0, 0]), formulas, "F")?;
        let effects = if count <= 4096 { 0 } else { 6 };
        expect(trial, &plain([0, 0, 1, count, 0, 0]), effects, "E")?;
    }
    for count in [0, 1, 2, 254, 255, 256, 257, 258, 512, 65_535] {
        let expected = if count <= 256 { 0 } else { 6 };
        expect(trial, &plain([0, 0, 1, 1, count, 0]), expected, "O")?;
        let without_effects = match count {
            0 => 0,
            1..=256 => 12,
            _ => 6,
        };
        expect(trial, &plain([0, 0, 1, 0, count, 0]), without_effects, "O")?;
    }
    Ok(())
}

/// W at most V - W, over the integers.
fn twin_limit(trial: &mut Trial) -> Verdict {
    let more = [255u16, 256, 257, 509, 510, 511, 512];
    for v in (0..=13u16).chain(more) {
        let half = v / 2;
        let near = [half.saturating_sub(1), half, half + 1, v, v + 1];
        for w in near.into_iter().chain([0, 1, 2, 32_768, 65_535]) {
            let expected = if 2 * u32::from(w) <= u32::from(v) {
                0
            } else {
                6
            };
            expect(trial, &plain([v, w, 1, 0, 0, 0]), expected, "W")?;
        }
    }
    Ok(())
}

fn largest_head_words(trial: &mut Trial) -> Verdict {
    for field in 0..5 {
        for word in [32_767, 32_768, 43_691, 65_534, 65_535] {
            let mut words = [4, 2, 3, 2, 2, 1];
            words[field] = word;
            expect(trial, &plain(words), 6, "a head field far above")?;
            let mut empty = plain([0; 6]);
            empty.head = Head::from_words(words);
            expect(trial, &empty, 6, "the same with empty tables")?;
        }
    }
    Ok(())
}

fn goal(trial: &mut Trial) -> Verdict {
    for f in [1, 2, 3, 4095, 4096] {
        for goal in [0, f - 1, f, f + 1, 4096, 32_768, 65_535] {
            let expected = if goal < f { 0 } else { 7 };
            expect(trial, &plain([0, 0, f, 0, 0, goal]), expected, "goal")?;
        }
    }
    expect(trial, &plain([0, 0, 0, 0, 0, 65_535]), 6, "F 0 before goal")
}

/// Every table from empty to longer than its count asks.
fn lengths(trial: &mut Trial) -> Verdict {
    let whole = damage::base();
    for table in 0..4 {
        let needed = whole.clone().tables.word_tables()[table].len();
        for length in 0..needed + 8 {
            let mut task = whole.clone();
            task.tables.word_tables()[table].resize(length, 65_535);
            let expected = if length < needed { 5 } else { 0 };
            expect(trial, &task, expected, "length")?;
        }
    }
    let needed = whole.tables.initial.len();
    for length in 0..needed + 8 {
        let mut task = whole.clone();
        task.tables.initial.resize(length, 255);
        let expected = if length < needed { 5 } else { 0 };
        expect(trial, &task, expected, "initial length")?;
    }
    for f in [4095, 4096] {
        let mut task = plain([512, 256, f, 4096, 256, 0]);
        expect(trial, &task, 0, "largest")?;
        task.tables.formulas.pop();
        expect(trial, &task, 5, "largest, one word short")?;
    }
    Ok(())
}

/// Garbage behind the count is ignored, however much there is.
fn behind_the_count(trial: &mut Trial) -> Verdict {
    for round in 0..2000 {
        let shape = Shape::small(&mut trial.random, true);
        let mut task = generate::task(&mut trial.random, &shape);
        let most = if round % 100 == 0 { 70_000 } else { 40 };
        for table in task.tables.word_tables() {
            let count = trial.random.below(most);
            table.extend((0..count).map(|_| trial.random.word()));
        }
        let count = trial.random.below(most);
        let initial = &mut task.tables.initial;
        initial.extend((0..count).map(|_| trial.random.byte()));
        expect(trial, &task, 0, "garbage behind the count")?;
    }
    Ok(())
}

fn refusals_alone(trial: &mut Trial) -> Verdict {
    expect(trial, &damage::base(), 0, "undamaged")?;
    for damage in damage::damages() {
        let mut task = damage::base();
        (damage.inflict)(&mut task);
        expect(trial, &task, damage.number, damage.name)?;
    }
    Ok(())
}

/// Of two refusals the one that 01 names first is given.
fn refusal_pairs(trial: &mut Trial) -> Verdict {
    let all = damage::damages();
    for first in &all {
        for second in &all {
            if damage::place(first.number) > damage::place(second.number) {
                continue;
            }
            if first.number == second.number && first.name == second.name {
                continue;
            }
            // The later one first, so that it cannot mend the earlier.
            let mut task = damage::base();
            (second.inflict)(&mut task);
            (first.inflict)(&mut task);
            let what = format!("{} and {}", first.name, second.name);
            expect(trial, &task, first.number, &what)?;
        }
    }
    Ok(())
}
