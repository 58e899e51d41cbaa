//! What the four C entries give (docs/C-INTERFACE.md), by the other
//! implementation: the number and every buffer at exit.

use crate::best::cheapest::plan_of;
use crate::cheapest::MOST_PLANNED;
use crate::compile::compile as compile_tables;
use crate::file::{file_of, read_task, LARGEST};
use crate::semantics::{self, MOST_STEPS};
use crate::task::*;

pub const HEAD_SIZE: usize = 12;
pub const COMPILE_RESULT_SIZE: usize = 4;
pub const RUN_RESULT_SIZE: usize = 16;
pub const PLAN_RESULT_SIZE: usize = 12;
/// No file is longer.
pub const MOST_FILE_BYTES: usize = 43_853;

/// What reading leaves.
#[derive(Clone, Debug, PartialEq, Eq)]
pub struct Read {
    pub number: u32,
    pub tables: Vec<u8>,
}

/// What compiling or planning leaves.
#[derive(Clone, Debug, PartialEq, Eq)]
pub struct Given {
    pub number: u32,
    pub out: Vec<u8>,
    pub result: Vec<u8>,
}

/// What running leaves.
#[derive(Clone, Debug, PartialEq, Eq)]
pub struct Run {
    pub number: u32,
    pub state: Vec<u8>,
    pub result: Vec<u8>,
}

pub fn read(file: &[u8], tables_length: usize) -> Read {
    let answer = read_task(file, &LARGEST).and_then(|task| {
        let tables = layout(&task);
        enough(tables_length, tables.len())?;
        Ok(tables)
    });
    Read {
        number: number(&answer),
        tables: filled(answer.unwrap_or_default(), tables_length),
    }
}

pub fn compile(file: &[u8], out_length: usize, result_length: usize) -> Given {
    let answer = compiled_file(file).and_then(|file| {
        enough(out_length, file.len())?;
        enough(result_length, COMPILE_RESULT_SIZE)?;
        Ok(file)
    });
    let number = number(&answer);
    let out = answer.unwrap_or_default();
    let result = match number {
        0 => (out.len() as u32).to_le_bytes().to_vec(),
        _ => Vec::new(),
    };
    Given {
        number,
        out: filled(out, out_length),
        result: filled(result, result_length),
    }
}

pub fn run(file: &[u8], state: &[u8], sequence: &[u8], result_length: usize) -> Run {
    match outcome(file, state, sequence, result_length) {
        Err(number) => Run {
            number: u32::from(number),
            state: state.to_vec(),
            result: vec![0; result_length],
        },
        Ok(outcome) => Run {
            number: u32::from(outcome.stop.unwrap_or(0)),
            result: filled(run_result(&outcome), result_length),
            state: outcome.state,
        },
    }
}

pub fn plan(file: &[u8], out_length: usize, result_length: usize) -> Given {
    let answer = planned(file, out_length, result_length);
    let number = number(&answer);
    let (out, result) = answer.unwrap_or_default();
    Given {
        number,
        out: filled(out, out_length),
        result: filled(result, result_length),
    }
}

/// A task's tables as `pnf_read` lays them out.
pub fn layout(task: &Task) -> Vec<u8> {
    let tables = &task.tables;
    let mut bytes = words(&task.head.words());
    bytes.extend(&tables.initial);
    bytes.extend(words(&tables.twins));
    bytes.extend(words(&tables.formulas));
    bytes.extend(words(&tables.effects));
    bytes.extend(words(&tables.operators));
    bytes
}

/// Operator numbers as they cross.
pub fn words(words: &[u16]) -> Vec<u8> {
    words.iter().flat_map(|word| word.to_le_bytes()).collect()
}

fn compiled_file(file: &[u8]) -> Result<Vec<u8>, Refusal> {
    let task = read_task(file, &LARGEST)?;
    let scratch = 2 * (MOST_FORMULAS + MOST_EFFECTS);
    let compiled = compile_tables(&task, &LARGEST, scratch);
    match compiled.number {
        0 => Ok(file_of(&compiled.head, &compiled.tables)),
        number => Err(number),
    }
}

/// The file's numbers, 16, 19, 20; then the run.
fn outcome(
    file: &[u8],
    state: &[u8],
    sequence: &[u8],
    result_length: usize,
) -> Result<semantics::Outcome, Refusal> {
    let task = read_task(file, &LARGEST)?;
    let right = state.len() == usize::from(task.head.variables);
    if !right || state.iter().any(|&byte| byte > 1) {
        return Err(16);
    }
    if sequence.len() % 2 == 1 || sequence.len() / 2 > MOST_STEPS {
        return Err(19);
    }
    enough(result_length, RUN_RESULT_SIZE)?;
    let numbers = sequence.chunks(2);
    let numbers: Vec<u16> = numbers.map(|n| u16::from_le_bytes([n[0], n[1]])).collect();
    let scratch = MOST_FORMULAS + MOST_EFFECTS;
    Ok(semantics::run(&task, state, scratch, &numbers))
}

/// The file's numbers, 21, 20, 22, 23; the plan's numbers, its steps and
/// cost.
fn planned(
    file: &[u8],
    out_length: usize,
    result_length: usize,
) -> Result<(Vec<u8>, Vec<u8>), Refusal> {
    let task = read_task(file, &LARGEST)?;
    if usize::from(task.head.variables) > MOST_PLANNED {
        return Err(21);
    }
    enough(result_length, PLAN_RESULT_SIZE)?;
    let plan = plan_of(&task).ok_or(22u16)?;
    let out = words(&plan.numbers);
    if out.len() > out_length {
        return Err(23);
    }
    let mut result = (plan.numbers.len() as u32).to_le_bytes().to_vec();
    result.extend(plan.cost.to_le_bytes());
    Ok((out, result))
}

/// Steps, cost, goal, plan, stop.
fn run_result(outcome: &semantics::Outcome) -> Vec<u8> {
    let mut bytes = outcome.steps.to_le_bytes().to_vec();
    bytes.extend(outcome.cost.to_le_bytes());
    bytes.push(u8::from(outcome.goal));
    bytes.push(u8::from(outcome.is_plan()));
    bytes.extend(outcome.stop.unwrap_or(0).to_le_bytes());
    bytes
}

fn enough(length: usize, needed: usize) -> Result<(), Refusal> {
    if length < needed {
        return Err(20);
    }
    Ok(())
}

fn number<T>(answer: &Result<T, Refusal>) -> u32 {
    answer.as_ref().err().map_or(0, |&number| u32::from(number))
}

/// The answer, and 0 behind it.
fn filled(mut answer: Vec<u8>, length: usize) -> Vec<u8> {
    answer.resize(length, 0);
    answer
}
