//! Group `files`: reading and writing undo each other; refusals in order.

use saqwillo_tests::damage;
use saqwillo_tests::file::{file_of, read, read_task, write, LARGEST, LONGEST_FILE};
use saqwillo_tests::generate::{self, Shape};
use saqwillo_tests::harness::{dump_task, Test, Trial, Verdict};
use saqwillo_tests::task::*;

use crate::same;

pub fn tests() -> Vec<Test> {
    let test = |name, body| Test {
        group: "files",
        name,
        body,
    };
    vec![
        test("written and read", written_and_read),
        test("at the limits", at_the_limits),
        test("every beginning", every_beginning),
        test("damaged files", damaged_files),
        test("order of refusals", order_of_refusals),
        test("percents", percents),
        test("around percents", around_percents),
        test("lent lengths", lent_lengths),
        test("longest file", longest_file),
    ]
}

fn round_trip(trial: &mut Trial, task: &Task) -> Verdict {
    trial.case();
    let file = file_of(&task.head, &task.tables);
    if read_task(&file, &LARGEST) == Ok(task.clone()) {
        return Ok(());
    }
    Err(format!("{}\n  file {file:x?}", dump_task(task)))
}

fn written_and_read(trial: &mut Trial) -> Verdict {
    for round in 0..20_000 {
        let shape = if round % 10 == 0 {
            Shape::middle(&mut trial.random, true)
        } else {
            Shape::small(&mut trial.random, true)
        };
        let task = generate::task(&mut trial.random, &shape);
        round_trip(trial, &task)?;
    }
    Ok(())
}

fn at_the_limits(trial: &mut Trial) -> Verdict {
    for _ in 0..5 {
        let shape = Shape::largest(&mut trial.random);
        let task = generate::task(&mut trial.random, &shape);
        round_trip(trial, &task)?;
    }
    Ok(())
}

/// Every proper beginning of a file ends inside a field or row.
fn every_beginning(trial: &mut Trial) -> Verdict {
    for _ in 0..300 {
        let shape = Shape::small(&mut trial.random, true);
        let task = generate::task(&mut trial.random, &shape);
        let mut file = file_of(&task.head, &task.tables);
        for length in 0..file.len() {
            trial.case();
            same("beginning", read_task(&file[..length], &LARGEST), Err(1))?;
        }
        trial.case();
        file.push(0);
        same("a byte more", read_task(&file, &LARGEST), Err(4))?;
    }
    Ok(())
}

/// A file that is taken is the file of its task: no task has two.
fn damaged_files(trial: &mut Trial) -> Verdict {
    let mut taken = 0;
    for _ in 0..100_000 {
        trial.case();
        let shape = Shape::small(&mut trial.random, true);
        let task = generate::task(&mut trial.random, &shape);
        let mut file = file_of(&task.head, &task.tables);
        damage::file(&mut trial.random, &mut file);
        let reading = read(&file, &LARGEST);
        if reading.number != 0 {
            same("zeros", reading.tables, Tables::zeros(&LARGEST))?;
            continue;
        }
        taken += 1;
        let again = file_of(&reading.head, &reading.tables);
        same("the same file", again, file)?;
    }
    same("some are taken", taken > 1000, true)
}

/// Files with two faults, and the number that comes first.
fn order_of_refusals(trial: &mut Trial) -> Verdict {
    let head = [0x04, 0x02, 0x00];
    for (what, rest, expected) in [
        ("map byte before fields", &[0x0d][..], 2),
        ("field ends before kind 9", &[0x91, 0x05], 1),
        ("field 0 before kind 9", &[0x91, 0x00, 0x00], 3),
        ("kind 9 before the next row", &[0x90], 10),
        ("b 0 before wrong a", &[0x43, 0x09, 0x00, 0x00, 0x00], 3),
        ("wrong a, b missing", &[0x43, 0x09, 0x00, 0x01], 1),
        ("unused a present", &[0x11, 0x01, 0x00], 10),
        ("unused a present and 0", &[0x11, 0x00, 0x00], 3),
        ("row 1 names itself", &[0x10, 0x31, 0x01, 0x00], 10),
        ("bytes follow", &[0x10, 0x30, 0x00], 4),
    ] {
        trial.case();
        let file = [&head, rest].concat();
        same(what, read_task(&file, &LARGEST), Err(expected))?;
    }
    for (what, file, expected) in [
        ("head bit 6", &[0x44][..], 2),
        ("F 0 before goal", &[0x20, 0x01, 0x00], 6),
        ("goal 0 present", &[0x24, 0x01, 0x00, 0x00, 0x00], 3),
        ("V 513", &[0x05, 0x01, 0x02, 0x01, 0x00], 6),
        ("spare bit", &[0x05, 0x01, 0x00, 0x01, 0x00, 0x02], 2),
        ("state missing", &[0x05, 0x09, 0x00, 0x01, 0x00, 0xff], 1),
    ] {
        trial.case();
        same(what, read_task(file, &LARGEST), Err(expected))?;
    }
    Ok(())
}

/// A head, a formula and an effect; two operators are to follow.
const BEFORE_OPERATORS: [u8; 9] = [0x1c, 1, 0, 1, 0, 2, 0, 0x10, 0x00];

/// Map bit 3 of the first operator: the percent that is read, or the number.
fn percents(trial: &mut Trial) -> Verdict {
    for (what, row, expected) in [
        ("absent", &[0x00][..], Ok(100)),
        ("absent beside a cost", &[0x04, 100, 0], Ok(100)),
        ("0", &[0x08, 0, 0], Ok(0)),
        ("99", &[0x08, 99, 0], Ok(99)),
        ("101", &[0x08, 101, 0], Ok(101)),
        ("200", &[0x08, 200, 0], Ok(200)),
        ("beside a cost", &[0x0c, 255, 255, 50, 0], Ok(50)),
        ("100", &[0x08, 100, 0], Err(3)),
        ("201", &[0x08, 201, 0], Err(24)),
        ("356", &[0x08, 100, 1], Err(24)),
        ("bit 4", &[0x18, 100, 0], Err(2)),
        ("cost 0 before it", &[0x0c, 0, 0, 100, 0], Err(3)),
        ("precondition F, 100", &[0x09, 1, 0, 100, 0], Err(3)),
        ("precondition F, 201", &[0x09, 1, 0, 201, 0], Err(12)),
        ("effect E, 0", &[0x0a, 1, 0, 0, 0], Err(12)),
    ] {
        trial.case();
        let file = [&BEFORE_OPERATORS, row, &[0x00]].concat();
        let task = read_task(&file, &LARGEST);
        let found = task.clone().map(|task| task.operator(0)[3]);
        same(what, found, expected)?;
        if let Ok(task) = task {
            same("written", file_of(&task.head, &task.tables), file)?;
        }
    }
    Ok(())
}

/// The file ends in the percent, or goes on: the order of refusals.
fn around_percents(trial: &mut Trial) -> Verdict {
    for (what, rows, expected) in [
        ("no percent", &[0x08][..], 1),
        ("half a percent", &[0x08, 201], 1),
        ("precondition F, half a percent", &[0x09, 1, 0, 100], 1),
        ("bit 5, no percent", &[0x28], 2),
        ("cost 0, half a percent", &[0x0c, 0, 0, 201], 3),
        ("24, the next row's 12", &[0x08, 201, 0, 0x01, 1, 0], 24),
        ("24, the next row's 2", &[0x08, 201, 0, 0x10], 24),
        ("24, the next row's 1", &[0x08, 201, 0], 24),
        ("12, the next row's 24", &[0x01, 1, 0, 0x08, 201, 0], 12),
        ("24 in the second row", &[0x00, 0x08, 201, 0], 24),
        ("24, bytes follow", &[0x00, 0x08, 201, 0, 0xff], 24),
        ("0, bytes follow", &[0x00, 0x08, 0, 0, 0xff], 4),
    ] {
        trial.case();
        let file = [&BEFORE_OPERATORS, rows].concat();
        same(what, read_task(&file, &LARGEST), Err(expected))?;
    }
    Ok(())
}

/// Lent tables just long enough, one short, one long.
fn lent_lengths(trial: &mut Trial) -> Verdict {
    for _ in 0..500 {
        trial.case();
        let shape = Shape::small(&mut trial.random, true);
        let task = generate::task(&mut trial.random, &shape);
        let file = file_of(&task.head, &task.tables);
        let needs = task.head.needs();
        same("exact", read(&file, &needs).tables, task.tables.clone())?;
        let mut short = needs;
        short.formulas -= 1;
        let reading = read(&file, &short);
        same(
            "short",
            (reading.number, reading.tables),
            (5, Tables::zeros(&short)),
        )?;
        same(
            "5 before 1",
            read(&file[..file.len() - 1], &short).number,
            5,
        )?;
        let exact = write(&task.head, &task.tables, file.len());
        same(
            "written",
            (exact.length, exact.output),
            (file.len(), file.clone()),
        )?;
        let short = write(&task.head, &task.tables, file.len() - 1);
        same("20", (short.number, short.length), (20, 0))?;
        same("20 leaves zeros", short.output, vec![0; file.len() - 1])?;
        let long = write(&task.head, &task.tables, file.len() + 3);
        same("zeros behind", &long.output[file.len()..], &[0; 3])?;
    }
    Ok(())
}

/// The longest file that any task has; rows 0 and 1 cannot be full.
fn longest_file(trial: &mut Trial) -> Verdict {
    trial.case();
    let mut task = generate::plain(Head::from_words([512, 256, 4096, 4096, 256, 1]));
    for i in 0..4096 {
        let row = if i < 2 { [2, 1, 0] } else { [4, 1, 1] };
        task.set_formula(i, row);
        task.set_effect(i, if i < 2 { [1, 1, 0] } else { row });
    }
    for i in 0..256 {
        task.set_operator(i, [1, 1, 1, 1]);
    }
    let file = file_of(&task.head, &task.tables);
    same("length", file.len(), LONGEST_FILE)?;
    same("task", read_task(&file, &LARGEST), Ok(task))
}
