//! The cheapest plan.

use saqwillo_tests::cheapest::{Planned, Room};
use saqwillo_tests::lent::Lent;
use saqwillo_tests::random::Random;
use saqwillo_tests::task::{Head, Tables, Task};

use super::{call_on_tables, on_tables};

on_tables! {
    fn test_cheapest(
        plan: *mut u16,
        plan_len: usize,
        scratch: *mut u8,
        scratch_len: usize,
        words: *mut u32,
        words_len: usize,
        result: *mut u64,
        result_len: usize
    ) -> u16;
}

/// The library's answer, with dirty buffers of these lengths.
pub fn cheapest(random: &mut Random, task: &Task, room: &Room) -> Planned {
    let mut plan = Lent::dirty(random, room.plan);
    let mut scratch = Lent::dirty(random, room.scratch);
    let mut words = Lent::dirty(random, room.words);
    let mut result = Lent::dirty(random, 2);
    let number = cheapest_quickly(
        task,
        plan.slice(),
        scratch.slice(),
        words.slice(),
        result.slice(),
    );
    let result = result.taken();
    Planned {
        number,
        steps: u32::try_from(result[0]).expect("at most 1,023 steps"),
        cost: result[1],
        plan: plan.taken(),
        scratch: scratch.taken(),
        words: words.taken(),
    }
}

/// The same on these buffers, for the comparison of times.
pub fn cheapest_quickly(
    task: &Task,
    plan: &mut [u16],
    scratch: &mut [u8],
    words: &mut [u32],
    result: &mut [u64],
) -> u16 {
    call_on_tables!(
        test_cheapest,
        &task.head,
        &task.tables,
        plan.as_mut_ptr(),
        plan.len(),
        scratch.as_mut_ptr(),
        scratch.len(),
        words.as_mut_ptr(),
        words.len(),
        result.as_mut_ptr(),
        result.len()
    )
}
