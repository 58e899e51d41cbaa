//! The cheapest plan, quickly: the least cost and steps of each state from
//! the front, successors stored once; then the states that lie on a plan of
//! that cost and those steps, from the back; then the lowest numbers, from
//! the front.

use std::cmp::Reverse;
use std::collections::BinaryHeap;

use super::Rows;
use crate::cheapest::{Plan, Room, MOST_PLANNED, STATE_WORDS};
use crate::semantics::charge;
use crate::task::*;

/// The answers of a call that is not refused.
#[derive(Clone, Copy, Debug, PartialEq, Eq)]
pub struct Found {
    pub steps: u32,
    pub cost: u64,
}

/// No successor: the operator is not applicable.
const NOWHERE: u16 = 65_535;

/// Cost and steps as one number that is compared.
const COST: u32 = 16;

/// The plan goes to its buffer; the scratch ends as 0.
pub fn cheapest(
    rows: &Rows,
    plan: &mut [u16],
    scratch: &mut [u8],
    words: &mut [u32],
) -> Result<Found, Refusal> {
    plan.fill(0);
    let answer = checked(rows, plan, scratch, words.len());
    scratch.fill(0);
    words.fill(0);
    answer
}

/// The cheapest plan of a task that is not refused, if it has one.
pub fn plan_of(task: &Task) -> Option<Plan> {
    let room = Room::of(task, 1023);
    let mut plan = vec![0; room.plan];
    let (mut scratch, mut words) = (vec![0; room.scratch], vec![0; room.words]);
    let found = cheapest(&Rows::of(task), &mut plan, &mut scratch, &mut words).ok()?;
    plan.truncate(found.steps as usize);
    Some(Plan {
        numbers: plan,
        cost: found.cost,
    })
}

fn checked(
    rows: &Rows,
    plan: &mut [u16],
    scratch: &mut [u8],
    words: usize,
) -> Result<Found, Refusal> {
    let rows = rows.checked()?;
    let [v, _, f, e, _, _] = rows.head.words().map(usize::from);
    if v > MOST_PLANNED {
        return Err(21);
    }
    if scratch.len() < f + e || words < STATE_WORDS << v {
        return Err(14);
    }
    let mut search = Search::new(&rows, &mut scratch[..f]);
    let best = search.forwards().ok_or(22u16)?;
    let steps = (best % (1 << COST)) as usize;
    if steps > plan.len() {
        return Err(23);
    }
    search.backwards();
    search.walk(&mut plan[..steps]);
    Ok(Found {
        steps: steps as u32,
        cost: best >> COST,
    })
}

struct Search<'a> {
    rows: &'a Rows<'a>,
    start: u16,
    /// By operator: what a step adds to cost and steps.
    prices: Vec<u64>,
    /// Least cost and steps of each state.
    keys: Vec<u64>,
    heap: BinaryHeap<Reverse<(u64, u16)>>,
    /// States in the order in which they were taken, and after each operator
    /// the state that follows.
    taken: Vec<u16>,
    successors: Vec<u16>,
    /// The goal states of least cost and steps; the states that lead there.
    wanted: Vec<bool>,
    /// The lowest operator on the way there, and its successor.
    next: Vec<(u16, u16)>,
    values: &'a mut [u8],
    /// Sets in the low half, clears in the high one.
    masks: Vec<u32>,
}

impl<'a> Search<'a> {
    fn new(rows: &'a Rows<'a>, values: &'a mut [u8]) -> Search<'a> {
        let states = 1 << rows.initial.len();
        let bits = rows.initial.iter().enumerate();
        let start = bits.fold(0, |code, (v, &bit)| code | u16::from(bit) << v);
        let mut keys = vec![u64::MAX; states];
        keys[usize::from(start)] = 0;
        let operators = rows.operators.chunks_exact(OPERATOR_ROW);
        let price = |row: &[u16]| (charge(row[2], row[3]) << COST) + 1;
        Search {
            rows,
            start,
            prices: operators.map(price).collect(),
            keys,
            heap: BinaryHeap::from([Reverse((0, start))]),
            taken: Vec::new(),
            successors: Vec::new(),
            wanted: vec![false; states],
            next: vec![(0, 0); states],
            values,
            masks: vec![0; usize::from(rows.head.effect_count)],
        }
    }

    /// Cost and steps of the best plans, whose ends are wanted.
    fn forwards(&mut self) -> Option<u64> {
        let mut best = None;
        while let Some(Reverse((key, state))) = self.heap.pop() {
            if best.is_some_and(|best| best < key) {
                break;
            }
            if self.keys[usize::from(state)] != key {
                continue;
            }
            self.evaluate(state);
            if self.values[usize::from(self.rows.head.goal)] == 1 {
                best = Some(key);
                self.wanted[usize::from(state)] = true;
            } else if best.is_none() {
                self.expand(state, key);
            }
        }
        best
    }

    fn expand(&mut self, state: u16, key: u64) {
        self.effects();
        self.taken.push(state);
        let operators = self.rows.operators.chunks_exact(OPERATOR_ROW);
        for (row, price) in operators.zip(&self.prices) {
            if self.values[usize::from(row[0])] == 0 {
                self.successors.push(NOWHERE);
                continue;
            }
            let mask = self.masks[usize::from(row[1])];
            let next = state & !((mask >> 16) as u16) | mask as u16;
            self.successors.push(next);
            let new = key + price;
            if new < self.keys[usize::from(next)] {
                self.keys[usize::from(next)] = new;
                self.heap.push(Reverse((new, next)));
            }
        }
    }

    /// What leads to a wanted state on a best plan is wanted too.
    fn backwards(&mut self) {
        let operators = self.prices.len();
        for (place, &state) in self.taken.iter().enumerate().rev() {
            let key = self.keys[usize::from(state)];
            let successors = &self.successors[place * operators..][..operators];
            for (number, (&next, price)) in successors.iter().zip(&self.prices).enumerate() {
                let leads = next != NOWHERE && self.wanted[usize::from(next)];
                if leads && key + price == self.keys[usize::from(next)] {
                    self.wanted[usize::from(state)] = true;
                    self.next[usize::from(state)] = (number as u16, next);
                    break;
                }
            }
        }
    }

    fn walk(&self, plan: &mut [u16]) {
        let mut state = self.start;
        for step in plan {
            (*step, state) = self.next[usize::from(state)];
        }
    }

    /// Every formula's value, lower rows first.
    fn evaluate(&mut self, state: u16) {
        let values = &mut *self.values;
        for (i, row) in self.rows.formulas.chunks_exact(ROW).enumerate() {
            let (a, b) = (usize::from(row[1]), usize::from(row[2]));
            values[i] = match row[0] {
                formula::FALSE => 0,
                formula::TRUE => 1,
                formula::VARIABLE => (state >> a) as u8 & 1,
                formula::NOT => 1 - values[a],
                formula::AND => values[a] & values[b],
                formula::OR => values[a] | values[b],
                formula::IMPLIES => (1 - values[a]) | values[b],
                _ => 1 - (values[a] ^ values[b]),
            };
        }
    }

    /// What every effect sets and clears, lower rows first.
    fn effects(&mut self) {
        let masks = &mut self.masks[..];
        for (i, row) in self.rows.effects.chunks_exact(ROW).enumerate() {
            let (a, b) = (usize::from(row[1]), usize::from(row[2]));
            masks[i] = match row[0] {
                effect::EMPTY => 0,
                effect::SET => 1 << a,
                effect::CLEAR => 1 << (16 + a),
                effect::BOTH => masks[a] | masks[b],
                _ => masks[b] * u32::from(self.values[a]),
            };
        }
    }
}
