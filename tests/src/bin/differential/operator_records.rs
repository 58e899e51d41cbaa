//! Group `operator_records`: one percent changed in a list of operator records.

use saqwillo_tests::generate::{self, Shape};
use saqwillo_tests::harness::{list, same, Test, Trial, Verdict};
use saqwillo_tests::operator_records::{set_percent, Changed};
use saqwillo_tests::task::*;

use crate::calls::operator_records as calls;

pub fn tests() -> Vec<Test> {
    let test = |name, body| Test {
        group: "operator_records",
        name,
        body,
    };
    vec![
        test("every number and percent", every_number_and_percent),
        test("operators of random tasks", random_tasks),
        test("any records", any_records),
        test("lists longer than any task's", long_lists),
        test("one change after the other", many_changes),
        test("rows and records", rows_and_records),
        test("a change in a run", change_in_a_run),
    ]
}

/// Percents at the limit's edge, and those that pass for one in fewer bits.
const PERCENTS: [u16; 14] = [
    0, 1, 50, 99, 100, 101, 199, 200, 201, 255, 256, 300, 32_768, 65_535,
];

/// Both must leave the same; then what they leave.
fn agree(trial: &mut Trial, records: &[u16], number: u16, percent: u16) -> Result<Changed, String> {
    trial.case();
    let wanted = set_percent(records, number, percent);
    let found = calls::set_percent(records, number, percent);
    if found == wanted {
        return Ok(wanted);
    }
    Err(format!(
        "  records {}\n  number {number}, percent {percent}\n  other implementation {} {}\n  library {} {}",
        list(records),
        wanted.number,
        list(&wanted.operators),
        found.number,
        list(&found.operators),
    ))
}

/// 17 before 24, and neither changes a word.
fn every_number_and_percent(trial: &mut Trial) -> Verdict {
    for count in 0..=5u16 {
        let words = 0..count * OPERATOR_ROW as u16;
        let records: Vec<u16> = words.map(|at| 1000 + 7 * at).collect();
        for number in (0..=count + 2).chain([255, 256, 257, 32_768, 65_534, 65_535]) {
            for percent in PERCENTS {
                let left = agree(trial, &records, number, percent)?;
                let wanted = match (number < count, percent <= MOST_PERCENT) {
                    (false, _) => 17,
                    (true, false) => 24,
                    (true, true) => 0,
                };
                same("number", left.number, wanted)?;
                let changed = records.iter().zip(&left.operators);
                let changed = changed.filter(|(before, after)| before != after);
                same("words", changed.count(), usize::from(wanted == 0))?;
            }
        }
    }
    Ok(())
}

fn random_tasks(trial: &mut Trial) -> Verdict {
    for _ in 0..10_000 {
        let shape = Shape::middle(&mut trial.random, true);
        let task = generate::task(&mut trial.random, &shape);
        let count = usize::from(task.head.operator_count);
        let number = trial.random.below(count + 2) as u16;
        let percent = match trial.random.below(4) {
            0 => trial.random.pick(&PERCENTS),
            _ => generate::percent(&mut trial.random),
        };
        agree(trial, &task.tables.operators, number, percent)?;
    }
    Ok(())
}

/// No other word is looked at: records that no task could have.
fn any_records(trial: &mut Trial) -> Verdict {
    for _ in 0..10_000 {
        let random = &mut trial.random;
        let length = OPERATOR_ROW * random.below(12);
        let records: Vec<u16> = (0..length).map(|_| random.word()).collect();
        let number = random.below(14) as u16;
        let percent = random.pick(&PERCENTS);
        agree(trial, &records, number, percent)?;
    }
    Ok(())
}

fn long_lists(trial: &mut Trial) -> Verdict {
    for count in [255, 256, 257, 5000, 65_535, 65_536, 65_537] {
        let words = OPERATOR_ROW * count;
        let records: Vec<u16> = (0..words).map(|_| trial.random.word()).collect();
        let last = (count - 1).min(65_535) as u16;
        for number in [0, 1, 254, 255, 256, last - 1, last, last.saturating_add(1)] {
            for percent in [0, 200, 201] {
                agree(trial, &records, number, percent)?;
            }
        }
    }
    Ok(())
}

/// What one change left is lent to the next.
fn many_changes(trial: &mut Trial) -> Verdict {
    for _ in 0..200 {
        let shape = Shape::middle(&mut trial.random, false);
        let mut records = generate::task(&mut trial.random, &shape).tables.operators;
        for _ in 0..30 {
            let number = trial.random.below(22) as u16;
            let percent = trial.random.pick(&PERCENTS);
            records = agree(trial, &records, number, percent)?.operators;
        }
    }
    Ok(())
}

/// A record is its row's words, and nothing where the table does not hold the
/// row; stored, it changes that row alone.
fn rows_and_records(trial: &mut Trial) -> Verdict {
    for _ in 0..10_000 {
        trial.case();
        let random = &mut trial.random;
        let length = random.below(30);
        let table: Vec<u16> = (0..length).map(|_| random.word()).collect();
        let number = match random.below(8) {
            0 => usize::MAX - random.below(4),
            1 => usize::MAX / OPERATOR_ROW + random.below(3),
            _ => random.below(9),
        };
        let row: [u16; OPERATOR_ROW] = std::array::from_fn(|_| random.word());
        let held = number < length / OPERATOR_ROW;
        let words = match held {
            true => table[OPERATOR_ROW * number..][..OPERATOR_ROW].to_vec(),
            false => vec![0; OPERATOR_ROW],
        };
        let read = calls::record_of(&table, number);
        same(
            "record",
            vec![read.precondition, read.effect, read.cost, read.percent],
            words,
        )?;
        let [precondition, effect, cost, percent] = row;
        let record = calls::Record {
            precondition,
            effect,
            cost,
            percent,
        };
        let mut wanted = table.clone();
        if held {
            wanted[OPERATOR_ROW * number..][..OPERATOR_ROW].copy_from_slice(&row);
        }
        same(
            "stored",
            calls::store_record(&table, number, record),
            wanted,
        )?;
    }
    Ok(())
}

/// The library runs the task with the changed table as the other implementation
/// runs it, and charges the new percent.
#[cfg(feature = "running")]
fn change_in_a_run(trial: &mut Trial) -> Verdict {
    for _ in 0..3_000 {
        let shape = Shape::small(&mut trial.random, true);
        let mut task = generate::task(&mut trial.random, &shape);
        let count = task.head.operator_count;
        if count == 0 {
            continue;
        }
        let number = trial.random.below(usize::from(count)) as u16;
        let percent = generate::percent(&mut trial.random);
        task.tables.operators =
            calls::set_percent(&task.tables.operators, number, percent).operators;
        let sequence = generate::sequence(&mut trial.random, count);
        let state = task.tables.initial.clone();
        let scratch = crate::stepping::scratch_of(&task);
        let left = crate::running::agree(trial, (&task, &state, scratch, &sequence))?;
        let once = [number];
        let step = crate::running::agree(trial, (&task, &state, scratch, &once))?;
        if step.result[0] == 1 {
            let [.., cost, _] = task.operator(usize::from(number));
            let charged = (u64::from(cost) * u64::from(percent) + 50) / 100;
            same("charge", step.result[1], charged)?;
        }
        same("number", left.number, 0)?;
    }
    Ok(())
}
