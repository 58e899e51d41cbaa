//! Group `reading`: cut, changed and damaged files.

use saqwillo_tests::damage;
use saqwillo_tests::file::{file_of, LARGEST};
use saqwillo_tests::generate::{self, Shape};
use saqwillo_tests::harness::{same, Test, Trial, Verdict};
use saqwillo_tests::task::{Lengths, Task, OPERATOR_ROW, ROW};

use crate::reading::{agree, agree_and_return, enough, small_task};

pub fn tests() -> Vec<Test> {
    let test = |name, body| Test {
        group: "reading",
        name,
        body,
    };
    vec![
        test("every beginning", every_beginning),
        test("every changed bit", every_changed_bit),
        test("changed bits at the limits", changed_bits_largest),
        test("damaged files", damaged_files),
        test("random bytes", random_bytes),
    ]
}

fn file_and_lengths(trial: &mut Trial) -> (Vec<u8>, Lengths) {
    let task: Task = small_task(&mut trial.random);
    let lent = match trial.random.below(20) {
        0 => LARGEST,
        _ => enough(&mut trial.random, &task.head.needs()),
    };
    (file_of(&task.head, &task.tables), lent)
}

/// Every proper beginning gives 1, any byte behind gives 4.
fn every_beginning(trial: &mut Trial) -> Verdict {
    for _ in 0..400 {
        let (mut file, lent) = file_and_lengths(trial);
        for length in 0..file.len() {
            let number = agree(trial, &file[..length], &lent)?.number;
            same("beginning", number, 1)?;
        }
        file.push(trial.random.byte());
        same("a byte more", agree(trial, &file, &lent)?.number, 4)?;
    }
    Ok(())
}

fn every_changed_bit(trial: &mut Trial) -> Verdict {
    let mut taken = 0;
    for _ in 0..250 {
        let (mut file, lent) = file_and_lengths(trial);
        for at in 0..8 * file.len() {
            file[at / 8] ^= 1 << (at % 8);
            taken += u32::from(agree_and_return(trial, &file, &lent)? == 0);
            file[at / 8] ^= 1 << (at % 8);
        }
    }
    same("some are taken", taken > 1000, true)
}

fn changed_bits_largest(trial: &mut Trial) -> Verdict {
    for _ in 0..4 {
        let shape = Shape::largest(&mut trial.random);
        let task = generate::task(&mut trial.random, &shape);
        let mut file = file_of(&task.head, &task.tables);
        for _ in 0..100 {
            let at = trial.random.below(8 * file.len());
            file[at / 8] ^= 1 << (at % 8);
            agree_and_return(trial, &file, &LARGEST)?;
            file[at / 8] ^= 1 << (at % 8);
        }
    }
    Ok(())
}

fn damaged_files(trial: &mut Trial) -> Verdict {
    for _ in 0..30_000 {
        let (mut file, lent) = file_and_lengths(trial);
        for _ in 0..2 {
            damage::file(&mut trial.random, &mut file);
            agree_and_return(trial, &file, &lent)?;
        }
    }
    Ok(())
}

/// Bytes with many 0s and small numbers behind a head with an F.
fn random_bytes(trial: &mut Trial) -> Verdict {
    for _ in 0..30_000 {
        let random = &mut trial.random;
        let mut file = vec![random.byte() & 0x1f | 0x04];
        for bit in 0..5 {
            if file[0] >> bit & 1 == 1 {
                file.extend([random.between(1, 4) as u8, 0]);
            }
        }
        for _ in 0..random.below(30) {
            file.push(match random.below(5) {
                0 => random.byte(),
                1 => (random.byte() & 0x73) | 0x10,
                2 => random.pick(&[0x08, 0x0c, 99, 100, 200, 201]),
                _ => random.below(3) as u8,
            });
        }
        let lent = Lengths {
            initial: 4,
            twins: 4,
            formulas: 4 * ROW,
            effects: 4 * ROW,
            operators: 4 * OPERATOR_ROW,
        };
        agree_and_return(trial, &file, &lent)?;
    }
    Ok(())
}
