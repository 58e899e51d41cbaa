//! Group `tables`: rows handed back on request.

use saqwillo_tests::harness::{Test, Trial, Verdict};
use saqwillo_tests::task::operator_row;
use saqwillo_tests::task::row;

use crate::calls;

pub fn tests() -> Vec<Test> {
    let test = |name, body| Test {
        group: "tables",
        name,
        body,
    };
    vec![
        test("rows on request", rows_on_request),
        test("random rows on request", random_rows),
        test("operator rows on request", operator_rows_on_request),
    ]
}

/// A part that is handed back, by the library: its length, and its words.
struct Handed {
    length: fn(&[u16], usize) -> usize,
    word: fn(&[u16], usize, usize) -> u16,
}

const ROWS: Handed = Handed {
    length: calls::row_length,
    word: calls::row_word,
};

/// Numbers whose row would overflow when its place is computed.
fn huge_numbers() -> Vec<usize> {
    let third = usize::MAX / 3;
    let mut all = vec![usize::MAX, usize::MAX - 1, usize::MAX / 2, 1 << 63];
    all.extend([(1 << 62) - 1, 1 << 62, (1 << 62) + 1, 3 << 62]);
    all.extend([third - 1, third, third + 1, third + 2]);
    all.extend([2 * third - 1, 2 * third, 2 * third + 1, 2 * third + 2]);
    all.extend([
        1 << 16,
        (1 << 16) + 1,
        1 << 32,
        (1 << 32) + 1,
        (1 << 63) + 1,
    ]);
    all
}

fn same_row(trial: &mut Trial, table: &[u16], number: usize) -> Verdict {
    same_part(trial, &ROWS, table, number, row(table, number))
}

fn same_part(
    trial: &mut Trial,
    handed: &Handed,
    table: &[u16],
    number: usize,
    ours: &[u16],
) -> Verdict {
    trial.case();
    let length = (handed.length)(table, number);
    let word = |at| (handed.word)(table, number, at);
    let places = (0..6).chain([usize::MAX - 1, usize::MAX]);
    let same = |at| word(at) == ours.get(at).copied().unwrap_or(0);
    if length == ours.len() && places.into_iter().all(same) {
        return Ok(());
    }
    let words: Vec<u16> = (0..5).map(word).collect();
    Err(format!(
        "  table {table:?} row {number}\n  other implementation {ours:?}, library length {length} words {words:?}"
    ))
}

fn rows_on_request(trial: &mut Trial) -> Verdict {
    for length in 0..=20 {
        let table: Vec<u16> = (0..length).map(|at| 1000 + 7 * at).collect();
        for number in (0..=25).chain(huge_numbers()) {
            same_row(trial, &table, number)?;
        }
    }
    Ok(())
}

fn random_rows(trial: &mut Trial) -> Verdict {
    for _ in 0..2000 {
        let length = trial.random.below(60);
        let table: Vec<u16> = (0..length).map(|_| trial.random.word()).collect();
        let near = length / 3 + trial.random.below(4);
        let far = trial.random.number() as usize;
        for number in [near.saturating_sub(2), trial.random.below(25), far] {
            same_row(trial, &table, number)?;
        }
    }
    Ok(())
}

/// The same of operator rows, which have four words.
fn operator_rows_on_request(trial: &mut Trial) -> Verdict {
    let handed = Handed {
        length: calls::operator_row_length,
        word: calls::operator_row_word,
    };
    for length in 0..=25 {
        let table: Vec<u16> = (0..length).map(|_| trial.random.word()).collect();
        for number in (0..=25).chain(huge_numbers()) {
            let ours = operator_row(&table, number);
            same_part(trial, &handed, &table, number, ours)?;
        }
    }
    Ok(())
}
