//! Stepping and running plans.

use saqwillo_tests::lent::Lent;
use saqwillo_tests::random::Random;
use saqwillo_tests::task::{Head, Tables, Task};

use super::{call_on_tables, on_tables};

on_tables! {
    fn test_step(
        state: *mut u8,
        state_len: usize,
        number: u16,
        scratch: *mut u8,
        scratch_len: usize,
        result: *mut u64,
        result_len: usize
    ) -> u16;
    fn test_run(
        state: *mut u8,
        state_len: usize,
        sequence: *const u16,
        sequence_len: usize,
        scratch: *mut u8,
        scratch_len: usize,
        result: *mut u64,
        result_len: usize
    ) -> u16;
}

/// What a call leaves: 0 or the refusal, and its buffers. The words of a
/// step's result are steps, cost, goal; of a run's further the stop's number
/// and step, and the goal if it ended.
#[derive(Clone, Debug, PartialEq, Eq)]
pub struct Left {
    pub number: u16,
    pub result: Vec<u64>,
    pub state: Vec<u8>,
    pub scratch: Vec<u8>,
}

/// The library's step, with a dirty scratch of this length.
pub fn step(
    random: &mut Random,
    task: &Task,
    state: &[u8],
    scratch_length: usize,
    operator: u16,
    mut result: Lent<u64>,
) -> Left {
    let mut state = Lent::of(state);
    let mut scratch = Lent::dirty(random, scratch_length);
    let [bytes, work] = [state.slice(), scratch.slice()];
    let number = call_on_tables!(
        test_step,
        &task.head,
        &task.tables,
        bytes.as_mut_ptr(),
        bytes.len(),
        operator,
        work.as_mut_ptr(),
        work.len(),
        result.slice().as_mut_ptr(),
        result.len()
    );
    Left {
        number,
        result: result.taken(),
        state: state.taken(),
        scratch: scratch.taken(),
    }
}

/// The library's run, with a dirty scratch of this length.
pub fn run(
    random: &mut Random,
    task: &Task,
    state: &[u8],
    scratch_length: usize,
    sequence: &[u16],
    mut result: Lent<u64>,
) -> Left {
    let mut state = Lent::of(state);
    let mut scratch = Lent::dirty(random, scratch_length);
    let number = run_quickly(
        task,
        state.slice(),
        sequence,
        scratch.slice(),
        result.slice(),
    );
    Left {
        number,
        result: result.taken(),
        state: state.taken(),
        scratch: scratch.taken(),
    }
}

/// The same on these buffers, for the comparison of times.
pub fn run_quickly(
    task: &Task,
    state: &mut [u8],
    sequence: &[u16],
    scratch: &mut [u8],
    result: &mut [u64],
) -> u16 {
    call_on_tables!(
        test_run,
        &task.head,
        &task.tables,
        state.as_mut_ptr(),
        state.len(),
        sequence.as_ptr(),
        sequence.len(),
        scratch.as_mut_ptr(),
        scratch.len(),
        result.as_mut_ptr(),
        result.len()
    )
}
