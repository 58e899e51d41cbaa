//! Group `reading`: valid files of every size, and both round trips.

use saqwillo_tests::entries::MOST_FILE_BYTES;
use saqwillo_tests::examples;
use saqwillo_tests::file::{file_of, read, Reading, Writing, LARGEST, LONGEST_FILE};
use saqwillo_tests::generate::{self, Shape};
use saqwillo_tests::harness::{list, same, Test, Trial, Verdict};
use saqwillo_tests::lent::Lent;
use saqwillo_tests::random::Random;
use saqwillo_tests::task::*;

use crate::calls::reading as calls;

pub fn tests() -> Vec<Test> {
    let test = |name, body| Test {
        group: "reading",
        name,
        body,
    };
    vec![
        test("the smallest files", smallest_files),
        test("every file of two bytes", two_bytes),
        test("random files", random_files),
        test("every count", every_count),
        test("at the limits", at_the_limits),
        test("the longest file", longest_file),
        test("every percent", every_percent),
        test("lent lengths", lent_lengths),
        test("heads of other lengths", other_heads),
    ]
}

/// Both must leave the same; then the reading, for more questions.
pub fn agree(trial: &mut Trial, file: &[u8], lent: &Lengths) -> Result<Reading, String> {
    trial.case();
    let expected = read(file, lent);
    let found = calls::read(&mut trial.random, file, lent);
    if found == expected {
        return Ok(expected);
    }
    let heads = (expected.head == found.head, expected.tables == found.tables);
    Err(format!(
        "  file {}\n  lent {lent:?}\n  other implementation {}, library {}; same head, same tables {heads:?}",
        list(file),
        expected.number,
        found.number
    ))
}

/// The same, and what is read from an accepted file is written as it.
pub fn agree_and_return(trial: &mut Trial, file: &[u8], lent: &Lengths) -> Result<u16, String> {
    let reading = agree(trial, file, lent)?;
    if reading.number == 0 {
        let expected = Writing {
            number: 0,
            length: file.len(),
            output: file.to_vec(),
        };
        let found = calls::write(
            &mut trial.random,
            &reading.head,
            &reading.tables,
            file.len(),
        );
        same("written back", found, expected)?;
    }
    Ok(reading.number)
}

/// A task is written, read back as itself, and written again.
fn round_trips(trial: &mut Trial, task: &Task, lent: &Lengths) -> Verdict {
    let file = file_of(&task.head, &task.tables);
    let written = calls::write(&mut trial.random, &task.head, &task.tables, file.len());
    same("written", &written.output, &file)?;
    let number = agree_and_return(trial, &file, lent)?;
    same("number", number, 0)?;
    same("length", file.len() <= LONGEST_FILE, true)
}

/// Lent lengths that are enough, now and then by much.
pub fn enough(random: &mut Random, needs: &Lengths) -> Lengths {
    let most = random.pick(&[1, 1, 4, 40]);
    let mut more = |need: usize| need + random.below(most);
    Lengths {
        initial: more(needs.initial),
        twins: more(needs.twins),
        formulas: more(needs.formulas),
        effects: more(needs.effects),
        operators: more(needs.operators),
    }
}

pub fn small_task(random: &mut Random) -> Task {
    let shape = Shape::small(random, true);
    generate::task(random, &shape)
}

fn smallest_files(trial: &mut Trial) -> Verdict {
    let smallest = examples::smallest();
    let reading = agree(trial, &examples::SMALLEST_FILE, &smallest.head.needs())?;
    same("smallest", reading.number, 0)?;
    same("its task", reading.tables, smallest.tables)?;
    for lent in [Lengths::default(), LARGEST] {
        for (file, expected) in [(&[][..], 1), (&[0xff], 2), (&[0x04], 1), (&[0x00], 6)] {
            same("number", agree(trial, file, &lent)?.number, expected)?;
        }
    }
    for task in [
        examples::whole(),
        examples::running(),
        examples::bicycle(),
        examples::percents(),
    ] {
        round_trips(trial, &task, &task.head.needs())?;
    }
    Ok(())
}

fn two_bytes(trial: &mut Trial) -> Verdict {
    let lent = Lengths {
        formulas: 3,
        ..Lengths::default()
    };
    for first in 0..=255 {
        agree(trial, &[first], &lent)?;
        for second in 0..=255 {
            agree(trial, &[first, second], &lent)?;
            agree(trial, &[0x04, 0x01, 0x00, first, second], &lent)?;
        }
    }
    Ok(())
}

fn random_files(trial: &mut Trial) -> Verdict {
    for round in 0..30_000 {
        let shape = match round % 20 {
            0 => Shape::middle(&mut trial.random, true),
            _ => Shape::small(&mut trial.random, true),
        };
        let task = generate::task(&mut trial.random, &shape);
        let lent = enough(&mut trial.random, &task.head.needs());
        round_trips(trial, &task, &lent)?;
    }
    Ok(())
}

/// Every V, W and O, and F and E in steps, the other counts small.
fn every_count(trial: &mut Trial) -> Verdict {
    let mut shapes: Vec<(usize, usize)> = (0..=MOST_VARIABLES).map(|v| (0, v)).collect();
    shapes.extend((0..=MOST_VARIABLES / 2).map(|w| (1, w)));
    shapes.extend((0..=MOST_OPERATORS).map(|o| (4, o)));
    shapes.extend((1..=MOST_FORMULAS).step_by(65).map(|f| (2, f)));
    shapes.extend((0..=MOST_EFFECTS).step_by(64).map(|e| (3, e)));
    for (which, count) in shapes {
        let random = &mut trial.random;
        let mut shape = Shape::small(random, true);
        match which {
            0 => {
                shape.variables = count;
                shape.twins = random.below(count / 2 + 1);
            }
            1 => {
                shape.variables = 2 * count + random.below(MOST_VARIABLES - 2 * count + 1);
                shape.twins = count;
            }
            2 => shape.formulas = count,
            3 => shape.effects = count,
            _ => {
                shape.effects += 1;
                shape.operators = count;
            }
        }
        let task = generate::task(random, &shape);
        let lent = enough(&mut trial.random, &task.head.needs());
        round_trips(trial, &task, &lent)?;
    }
    Ok(())
}

fn at_the_limits(trial: &mut Trial) -> Verdict {
    for _ in 0..20 {
        let shape = Shape::largest(&mut trial.random);
        let task = generate::task(&mut trial.random, &shape);
        round_trips(trial, &task, &LARGEST)?;
    }
    Ok(())
}

/// Every row as long as it can be, and some bytes behind it.
fn longest_file(trial: &mut Trial) -> Verdict {
    let mut task = generate::plain(Head::from_words([512, 256, 4096, 4096, 256, 4095]));
    for i in 0..4096 {
        let below = i.max(1) as u16 - 1;
        task.set_formula(i, if i < 2 { [2, 511, 0] } else { [4, 1, below] });
        task.set_effect(i, if i < 2 { [1, 511, 0] } else { [3, below, 1] });
    }
    for i in 0..256 {
        task.set_operator(i, [4095, 4095, 65_535, 200]);
    }
    round_trips(trial, &task, &LARGEST)?;
    let mut file = file_of(&task.head, &task.tables);
    same("length", file.len(), LONGEST_FILE)?;
    for cut in 1..300 {
        let number = agree(trial, &file[..file.len() - 67 * cut], &LARGEST)?.number;
        same("cut", number, 1)?;
    }
    let bound = MOST_FILE_BYTES;
    for length in [LONGEST_FILE + 1, bound, bound + 1, 65_535, 65_536, 200_000] {
        file.resize(length, 0xff);
        same("longer", agree(trial, &file, &LARGEST)?.number, 4)?;
    }
    Ok(())
}

/// Present in the file: 100 gives 3, above 200 gives 24.
fn every_percent(trial: &mut Trial) -> Verdict {
    let priced = examples::priced(7, FULL_PERCENT);
    let lent = priced.head.needs();
    let mut file = file_of(&priced.head, &priced.tables);
    let map = file.len() - 3;
    same("absent", file[map], 0x04)?;
    file[map] = 0x0c;
    for percent in 0..=65_535u16 {
        let file = [&file[..], &percent.to_le_bytes()].concat();
        let expected = match percent {
            FULL_PERCENT => 3,
            0..=MOST_PERCENT => 0,
            _ => 24,
        };
        let number = agree_and_return(trial, &file, &lent)?;
        same(&format!("{percent}"), number, expected)?;
    }
    Ok(())
}

/// Each table one short, just enough and one long, in all combinations.
fn lent_lengths(trial: &mut Trial) -> Verdict {
    for _ in 0..60 {
        let task = small_task(&mut trial.random);
        let needs = task.head.needs().list();
        let file = file_of(&task.head, &task.tables);
        for code in 0..243 {
            let more = |table: u32| code / 3usize.pow(table) % 3;
            let [initial, twins, formulas, effects, operators] = [0, 1, 2, 3, 4]
                .map(|table| (needs[table as usize] + more(table)).saturating_sub(1));
            let lent = Lengths {
                initial,
                twins,
                formulas,
                effects,
                operators,
            };
            let enough = lent.cover(&task.head.needs());
            let number = agree_and_return(trial, &file, &lent)?;
            same("number", number, if enough { 0 } else { 5 })?;
            let cut = agree(trial, &file[..file.len() - 1], &lent)?.number;
            same("5 before a later 1", cut, if enough { 1 } else { 5 })?;
        }
    }
    Ok(())
}

/// A lent head of another length than six is left as it was.
fn other_heads(trial: &mut Trial) -> Verdict {
    for length in [0, 1, 5, 7, 8, 300] {
        for cut in [0, 1] {
            trial.case();
            let task = small_task(&mut trial.random);
            let file = file_of(&task.head, &task.tables);
            let file = &file[..file.len() - cut];
            let lent = task.head.needs();
            let head = Lent::filled(length, 0xabcd);
            let (number, head, tables) = calls::read_into(&mut trial.random, file, &lent, head);
            let expected = read(file, &lent);
            same("number", number, expected.number)?;
            same("tables", tables, expected.tables)?;
            same("head", head, vec![0xabcd; length])?;
        }
    }
    Ok(())
}
