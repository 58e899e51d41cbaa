//! The cheapest plan of a small task (02, K1): its refusals in order, and the
//! plan itself by trying lists of operator numbers.

use crate::check::check;
use crate::semantics::plain_run;
use crate::task::*;

/// Most variables, twins among them.
pub const MOST_PLANNED: usize = 10;

/// Words of 32 bits for each state.
pub const STATE_WORDS: usize = 4;

/// A list of operator numbers that is a plan, and its cost.
#[derive(Clone, Debug, PartialEq, Eq)]
pub struct Plan {
    pub numbers: Vec<u16>,
    pub cost: u64,
}

/// Lengths of the lent buffers: the plan's words, bytes of scratch, words of
/// scratch.
#[derive(Clone, Copy, Debug, PartialEq, Eq)]
pub struct Room {
    pub plan: usize,
    pub scratch: usize,
    pub words: usize,
}

impl Room {
    /// The least scratch for a task of few variables, and so long a plan.
    pub fn of(task: &Task, plan: usize) -> Room {
        let head = &task.head;
        Room {
            plan,
            scratch: usize::from(head.formula_count) + usize::from(head.effect_count),
            words: STATE_WORDS << head.variables.min(MOST_PLANNED as u16),
        }
    }
}

/// What the call leaves: 0 or the refusal, the plan's length and cost, and
/// the buffers.
#[derive(Clone, Debug, PartialEq, Eq)]
pub struct Planned {
    pub number: Refusal,
    pub steps: u32,
    pub cost: u64,
    pub plan: Vec<u16>,
    pub scratch: Vec<u8>,
    pub words: Vec<u32>,
}

/// The tables' numbers, 21, 14, 22, 23, or the plan that `find` gives.
pub fn planned(task: &Task, room: &Room, find: impl Fn(&Task) -> Option<Plan>) -> Planned {
    let mut left = Planned {
        number: 0,
        steps: 0,
        cost: 0,
        plan: vec![0; room.plan],
        scratch: vec![0; room.scratch],
        words: vec![0; room.words],
    };
    match answer(task, room, find) {
        Ok(plan) => {
            let steps = plan.numbers.len();
            left.plan[..steps].copy_from_slice(&plan.numbers);
            left.steps = steps as u32;
            left.cost = plan.cost;
        }
        Err(number) => left.number = number,
    }
    left
}

fn answer(task: &Task, room: &Room, find: impl Fn(&Task) -> Option<Plan>) -> Result<Plan, Refusal> {
    check(&task.head, &task.tables)?;
    if usize::from(task.head.variables) > MOST_PLANNED {
        return Err(21);
    }
    let needed = Room::of(task, 0);
    if room.scratch < needed.scratch || room.words < needed.words {
        return Err(14);
    }
    let plan = find(task).ok_or(22u16)?;
    if plan.numbers.len() > room.plan {
        return Err(23);
    }
    Ok(plan)
}

/// The best plan among all lists of at most so many numbers: the least cost,
/// then the fewest steps, then the first by numbers from the front.
pub fn by_trying(task: &Task, longest: usize) -> Option<Plan> {
    let mut best: Option<(u128, usize, Vec<u16>)> = None;
    for length in 0..=longest {
        let mut list = vec![0; length];
        loop {
            let run = plain_run(task, &task.tables.initial, &list);
            if run.stop.is_none() && run.goal {
                let plan = (run.cost, length, list.clone());
                if best.as_ref().is_none_or(|best| plan < *best) {
                    best = Some(plan);
                }
            }
            if !advance(&mut list, task.head.operator_count) {
                break;
            }
        }
    }
    best.map(|(cost, _, numbers)| Plan {
        numbers,
        cost: u64::try_from(cost).expect("a short list"),
    })
}

/// The next list of this length, if there is one; the last number counts
/// fastest.
fn advance(list: &mut [u16], operators: u16) -> bool {
    for number in list.iter_mut().rev() {
        *number += 1;
        if *number < operators {
            return true;
        }
        *number = 0;
    }
    false
}
