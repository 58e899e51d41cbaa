//! Small tasks on which planning is slow: counters, lanes of states whose
//! lists of operators part at the start, and many changes of mind.

use crate::draft::Draft;
use crate::task::*;

/// Formula rows of a draft that name values of bits.
struct Bits {
    yes: u16,
    /// That a bit is 1, and that it is 0.
    one: Vec<u16>,
    zero: Vec<u16>,
}

impl Bits {
    fn of(draft: &mut Draft, variables: u16) -> Bits {
        let yes = draft.yes();
        let one: Vec<u16> = (0..variables).map(|v| draft.variable(v)).collect();
        let zero = one.iter().map(|&row| draft.not(row)).collect();
        Bits { yes, one, zero }
    }

    /// That all bits from..to are 1.
    fn ones(&self, draft: &mut Draft, from: usize, to: usize) -> u16 {
        let bits = self.one[from..to].iter();
        bits.fold(self.yes, |whole, &bit| draft.and(whole, bit))
    }

    /// The number of the bits from..to grows by 1; it stays if all are 1.
    fn count(&self, draft: &mut Draft, from: usize, to: usize) -> u16 {
        let full = self.ones(draft, from, to);
        let room = draft.not(full);
        let mut carry = room;
        let mut parts = vec![draft.effect(effect::EMPTY, 0, 0)];
        for v in from..to {
            let [up, down] = [self.zero[v], self.one[v]].map(|bit| draft.and(carry, bit));
            let (set, clear) = (draft.set(v as u16), draft.clear(v as u16));
            parts.push(draft.under(up, set));
            parts.push(draft.under(down, clear));
            carry = down;
        }
        draft.all(&parts)
    }
}

/// A number of so many bits counts from 0 to the goal, all 1, by any of the
/// operators: the plan has 2^V - 1 steps. Costs are given by the operator.
pub fn counter(variables: u16, operators: u16, cost: impl Fn(u16) -> u16) -> Task {
    let mut draft = Draft::new(&vec![0; usize::from(variables)]);
    let bits = Bits::of(&mut draft, variables);
    let count = bits.count(&mut draft, 0, usize::from(variables));
    for o in 0..operators {
        draft.operator(bits.yes, count, cost(o));
    }
    let goal = bits.ones(&mut draft, 0, usize::from(variables));
    draft.finish(goal)
}

/// Any bit can be set or cleared by one of 2 x V operators, and the rest of
/// the 256 set one bit and clear the next. The goal is all 1, or false.
pub fn flips(variables: u16, cost: impl Fn(u16) -> u16, reachable: bool) -> Task {
    let mut draft = Draft::new(&vec![0; usize::from(variables)]);
    let bits = Bits::of(&mut draft, variables);
    let never = draft.not(bits.yes);
    let sets: Vec<u16> = (0..variables).map(|v| draft.set(v)).collect();
    let clears: Vec<u16> = (0..variables).map(|v| draft.clear(v)).collect();
    for o in 0..256 {
        let v = usize::from(o % variables);
        let next = (v + 1 + usize::from(o / variables)) % usize::from(variables);
        let effect = match o / variables {
            0 => sets[v],
            1 => clears[v],
            _ if next == v => sets[v],
            _ => draft.all(&[sets[v], clears[next]]),
        };
        draft.operator(bits.yes, effect, cost(o));
    }
    let goal = match reachable {
        true => bits.ones(&mut draft, 0, usize::from(variables)),
        false => never,
    };
    draft.finish(goal)
}

/// Lanes of states with a counter each: from the last lane all operators but
/// one lead to the next place of lower lanes, in turns, with the same cost
/// and length as the list that stands there. Lists of different lanes part
/// at the start. The last place is the goal, or nothing is.
pub fn lanes(lane_bits: u16, place_bits: u16, reachable: bool) -> Task {
    let variables = lane_bits + place_bits;
    let mut draft = Draft::new(&vec![0; usize::from(variables)]);
    let bits = Bits::of(&mut draft, variables);
    let never = draft.not(bits.yes);
    let (first, last) = (usize::from(lane_bits), usize::from(variables));
    let count = bits.count(&mut draft, first, last);
    let start = bits.zero[first..].iter();
    let start = start.fold(bits.yes, |whole, &bit| draft.and(whole, bit));
    let later = draft.not(start);
    let lanes = 1u16 << lane_bits;
    let enter: Vec<u16> = (0..lanes)
        .map(|lane| {
            let mut parts = vec![count];
            for v in 0..lane_bits {
                let atom = match lane >> v & 1 {
                    1 => draft.set(v),
                    _ => draft.clear(v),
                };
                parts.push(atom);
            }
            draft.all(&parts)
        })
        .collect();
    let last_lane = bits.ones(&mut draft, 0, first);
    let other_lane = draft.not(last_lane);
    // at the start operator o leads to lane o; later operator 0 stays in its
    // lane, and the others leave the last lane
    let stays = draft.and(later, other_lane);
    for o in 0..256 {
        let lane = enter[usize::from(o % (lanes - 1).max(1))];
        let at_start = match o {
            o if o < lanes => draft.under(start, enter[usize::from(o)]),
            _ => draft.effect(effect::EMPTY, 0, 0),
        };
        let on = match o {
            0 => draft.under(stays, count),
            255 => draft.under(later, count),
            _ => {
                let leaves = draft.and(later, last_lane);
                draft.under(leaves, lane)
            }
        };
        let effect = draft.all(&[at_start, on]);
        draft.operator(bits.yes, effect, 0);
    }
    let goal = match reachable {
        true => bits.ones(&mut draft, first, last),
        false => never,
    };
    draft.finish(goal)
}

/// Two lanes of 256 places, then two wide layers of 256 states: each state
/// of the first leads to every one of the second; or, if `apart`, those from
/// the first lane to two of their own.
pub fn fan(apart: bool) -> Task {
    // bit 0 the lane, 1 to 8 the place or the number, 9 the wide part; in it
    // bit 0 says which layer
    let mut draft = Draft::new(&[0; 10]);
    let bits = Bits::of(&mut draft, 10);
    let never = draft.not(bits.yes);
    let count = bits.count(&mut draft, 1, 9);
    let full = bits.ones(&mut draft, 1, 9);
    let start = bits.zero[1..].iter();
    let start = start.fold(bits.yes, |whole, &bit| draft.and(whole, bit));
    let narrow = draft.and(bits.zero[9], full);
    let room = draft.not(full);
    let counting = draft.and(bits.zero[9], room);
    let first_layer = draft.and(bits.one[9], bits.zero[0]);
    let set: Vec<u16> = (0..10).map(|v| draft.set(v)).collect();
    let clear: Vec<u16> = (0..10).map(|v| draft.clear(v)).collect();
    let advance = draft.under(counting, count);
    let to_second = draft.under(start, set[0]);
    let leave = draft.all(&[set[9], clear[0]]);
    let leave = draft.under(narrow, leave);
    // the lane decides the highest bit of the number in the first layer
    let lanes = [bits.zero[0], bits.one[0]].map(|lane| draft.and(narrow, lane));
    let high = [
        draft.under(lanes[0], clear[8]),
        draft.under(lanes[1], set[8]),
    ];
    let moving = draft.all(&[advance, leave, high[0], high[1]]);
    for o in 0..256u16 {
        let mut own = bits.yes;
        let mut number = vec![set[0]];
        let mut low = Vec::new();
        for v in 0..7 {
            let (literal, atom) = match o >> v & 1 {
                1 => (bits.one[v + 1], set[v + 1]),
                _ => (bits.zero[v + 1], clear[v + 1]),
            };
            if apart && o < 128 {
                own = draft.and(own, literal);
            }
            low.push(atom);
        }
        if apart && o >= 128 {
            own = never;
        }
        let leads = draft.formula(formula::OR, bits.one[8], own);
        let leads = draft.and(first_layer, leads);
        let low = draft.all(&low);
        number.push(low);
        number.push(if o >> 7 == 1 { set[8] } else { clear[8] });
        let number = draft.all(&number);
        let mut whole = vec![moving, draft.under(narrow, low), draft.under(leads, number)];
        if o == 255 {
            whole.push(to_second);
        }
        let effect = draft.all(&whole);
        draft.operator(bits.yes, effect, 0);
    }
    draft.finish(never)
}

/// From every state all operators lead to the next one, each at a lower cost
/// than the one before.
pub fn cheaper_and_cheaper(variables: u16) -> Task {
    counter(variables, 256, |o| 10 * (255 - o))
}

/// Formulas and effects up to their limits, all of which matter to no
/// operator but the flips of ten bits.
pub fn largest_rows(reachable: bool) -> Task {
    let mut task = flips(10, |o| o, reachable);
    let mut number = task.head.formula_count;
    while number < MOST_FORMULAS as u16 {
        let kind = formula::NOT + number % 5;
        let (a, b) = (number - 1 - number % 7, number - 1 - number % 5);
        let b = if kind == formula::NOT { 0 } else { b };
        task.tables.formulas.extend([kind, a, b]);
        number += 1;
    }
    task.head.formula_count = number;
    let mut number = task.head.effect_count;
    while number < MOST_EFFECTS as u16 {
        let (a, b) = (number - 1 - number % 7, number - 1 - number % 5);
        let row = match number % 2 {
            0 => [effect::BOTH, a, b],
            _ => [effect::UNDER, number, b],
        };
        task.tables.effects.extend(row);
        number += 1;
    }
    task.head.effect_count = number;
    task
}
