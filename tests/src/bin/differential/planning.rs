//! Group `planning`: cheapest plans, their refusals and buffers.

use saqwillo_tests::best::cheapest::plan_of;
use saqwillo_tests::cheapest::{planned, Planned, Room};
use saqwillo_tests::damage;
use saqwillo_tests::draft::Draft;
use saqwillo_tests::generate::{self, Shape};
use saqwillo_tests::harness::{dump_task, same, Test, Trial, Verdict};
use saqwillo_tests::long_plans;
use saqwillo_tests::moves;
use saqwillo_tests::random::Random;
use saqwillo_tests::semantics::plain_run;
use saqwillo_tests::shrink::shrink;
use saqwillo_tests::task::*;

use crate::calls::planning as calls;

pub fn tests() -> Vec<Test> {
    let test = |name, body| Test {
        group: "planning",
        name,
        body,
    };
    vec![
        test("random tasks", random_tasks),
        test("lines of states", lines_of_states),
        test("each number of variables", each_number_of_variables),
        test("the longest plans", longest_plans),
        test("lanes that tie", lanes_that_tie),
        test("room for the plan", room_for_the_plan),
        test("scratch lengths", scratch_lengths),
        test("order of refusals", order_of_refusals),
        test("the largest costs", largest_costs),
        test("charges decide", charges_decide),
    ]
}

/// Both must leave the same; then what they leave.
fn agree(trial: &mut Trial, task: &Task, room: &Room) -> Result<Planned, String> {
    trial.case();
    let wanted = planned(task, room, plan_of);
    if calls::cheapest(&mut trial.random, task, room) == wanted {
        return Ok(wanted);
    }
    let random = &mut trial.random;
    let least = shrink(task, &mut |task| {
        calls::cheapest(random, task, room) != planned(task, room, plan_of)
    });
    Err(format!(
        "{}\n  {room:?}\n  other implementation {:?}\n  library {:?}",
        dump_task(&least),
        planned(&least, room, plan_of),
        calls::cheapest(&mut trial.random, &least, room)
    ))
}

/// The plan is one, by the plain run.
fn is_plan(task: &Task, left: &Planned) -> Verdict {
    let steps = left.steps as usize;
    let run = plain_run(task, &task.tables.initial, &left.plan[..steps]);
    let found = (run.stop, run.goal, run.cost);
    same("a plan", found, (None, true, u128::from(left.cost)))
}

fn random_tasks(trial: &mut Trial) -> Verdict {
    let mut numbers = [0; 25];
    for _ in 0..20_000 {
        let random = &mut trial.random;
        let shape = match random.below(20) {
            0 => Shape::middle(random, true),
            _ => Shape::small(random, true),
        };
        let mut task = generate::task(random, &shape);
        if random.chance(10) {
            damage::any(random, &mut task);
        }
        let length = random.below(6);
        let room = Room::of(&task, length);
        let left = agree(trial, &task, &room)?;
        numbers[usize::from(left.number)] += 1;
        if left.number == 0 {
            is_plan(&task, &left)?;
        }
    }
    let enough = [0, 21, 22].iter().all(|&number| numbers[number] > 100);
    same(&format!("{numbers:?}"), enough, true)
}

fn random_moves(random: &mut Random, variables: usize) -> Task {
    let operators = random.pick(&[1, 3, 8, 20]);
    let costs = random.pick(&[1, 2, 3, 20, 65_536]);
    match random.chance(60) && variables < 6 {
        true => moves::line(random, variables, operators.min(64 >> variables), costs),
        false => moves::task(random, variables, operators, costs),
    }
}

fn lines_of_states(trial: &mut Trial) -> Verdict {
    let (mut long, mut none) = (0, 0);
    for _ in 0..20_000 {
        let variables = trial.random.between(1, 5);
        let task = random_moves(&mut trial.random, variables);
        let room = Room::of(&task, 31);
        let left = agree(trial, &task, &room)?;
        long += u32::from(left.steps > 8);
        none += u32::from(left.number == 22);
        if left.number == 0 {
            is_plan(&task, &left)?;
        }
    }
    same(
        &format!("{long} long, {none} none"),
        long > 200 && none > 200,
        true,
    )
}

/// 0 to 10 variables, and 21 above.
fn each_number_of_variables(trial: &mut Trial) -> Verdict {
    for variables in 0..=14 {
        for _ in 0..200 {
            let task = random_moves(&mut trial.random, variables);
            let room = Room::of(&task, 1023);
            let left = agree(trial, &task, &room)?;
            same("21", left.number == 21, variables > 10)?;
        }
    }
    Ok(())
}

/// A counter: 2^V - 1 steps, with one operator and with many that tie.
fn longest_plans(trial: &mut Trial) -> Verdict {
    for variables in 0..=10 {
        for operators in [1, 2, 256] {
            let longest = (1 << variables) - 1;
            for (cost, total) in [(0, 0), (1, longest), (65_535, 65_535 * longest)] {
                let task = long_plans::counter(variables, operators, |_| cost);
                for (length, number) in [(longest, 0), (longest + 5, 0), (longest - 1, 23)] {
                    if length < 0 {
                        continue;
                    }
                    let room = Room::of(&task, length as usize);
                    let left = agree(trial, &task, &room)?;
                    same("number", left.number, number)?;
                    let wanted = if number == 0 { total as u64 } else { 0 };
                    same("cost", left.cost, wanted)?;
                }
            }
        }
    }
    Ok(())
}

fn lanes_that_tie(trial: &mut Trial) -> Verdict {
    for reachable in [true, false] {
        for (lane_bits, place_bits) in [(1, 3), (2, 3), (1, 9), (2, 8), (3, 7)] {
            let task = long_plans::lanes(lane_bits, place_bits, reachable);
            let room = Room::of(&task, 600);
            let left = agree(trial, &task, &room)?;
            same("number", left.number, if reachable { 0 } else { 22 })?;
        }
        let task = long_plans::flips(8, |o| o % 3, reachable);
        let room = Room::of(&task, 600);
        agree(trial, &task, &room)?;
        let task = long_plans::largest_rows(reachable);
        let room = Room::of(&task, 600);
        agree(trial, &task, &room)?;
    }
    for apart in [false, true] {
        let task = long_plans::fan(apart);
        let room = Room::of(&task, 600);
        agree(trial, &task, &room)?;
    }
    let task = long_plans::cheaper_and_cheaper(6);
    let room = Room::of(&task, 63);
    agree(trial, &task, &room).map(|_| ())
}

/// 23 exactly if the plan is longer than its buffer; all past it is 0.
fn room_for_the_plan(trial: &mut Trial) -> Verdict {
    for _ in 0..300 {
        let variables = trial.random.between(1, 4);
        let task = random_moves(&mut trial.random, variables);
        let room = Room::of(&task, 15);
        let whole = agree(trial, &task, &room)?;
        for length in 0..18 {
            let room = Room::of(&task, length);
            let left = agree(trial, &task, &room)?;
            let short = whole.number == 0 && length < whole.steps as usize;
            same("23", left.number == 23, short)?;
        }
    }
    Ok(())
}

fn scratch_lengths(trial: &mut Trial) -> Verdict {
    for _ in 0..200 {
        let variables = trial.random.between(0, 4);
        let task = random_moves(&mut trial.random, variables);
        let needed = Room::of(&task, 15);
        for (scratch, words) in [
            (0, 0),
            (0, needed.words),
            (needed.scratch, 0),
            (needed.scratch - 1, needed.words),
            (needed.scratch, needed.words - 1),
            (needed.scratch, needed.words),
            (needed.scratch + 1, needed.words + 1),
            (needed.scratch + 70, needed.words + 70),
        ] {
            let room = Room {
                plan: 15,
                scratch,
                words,
            };
            let left = agree(trial, &task, &room)?;
            let short = scratch < needed.scratch || words < needed.words;
            same("14", left.number == 14, short)?;
        }
    }
    Ok(())
}

/// The tables' numbers, then 21, 14, 22, 23.
fn order_of_refusals(trial: &mut Trial) -> Verdict {
    for damage in damage::damages() {
        let mut task = damage::base();
        (damage.inflict)(&mut task);
        for room in [(0, 0, 0), (0, 11, 512), (9, 10, 512), (9, 11, 512)] {
            let room = Room {
                plan: room.0,
                scratch: room.1,
                words: room.2,
            };
            let left = agree(trial, &task, &room)?;
            same(damage.name, left.number, damage.number)?;
        }
    }
    let mut draft = Draft::new(&[0]);
    let (yes, v0, set) = (draft.yes(), draft.variable(0), draft.set(0));
    draft.operator(yes, set, 5);
    let one = draft.finish(v0);
    let none = generate::plain(Head::from_words([1, 0, 1, 0, 0, 0]));
    let mut none = none;
    none.set_formula(0, [formula::FALSE, 0, 0]);
    let large = generate::plain(Head::from_words([11, 5, 2, 2, 1, 0]));
    for (task, plan, scratch, words, number) in [
        (&large, 0, 0, 0, 21),
        (&large, 9, 4, 8192, 21),
        (&none, 0, 0, 8, 14),
        (&none, 0, 1, 7, 14),
        (&none, 0, 1, 8, 22),
        (&one, 0, 3, 7, 14),
        (&one, 0, 3, 8, 23),
        (&one, 1, 3, 8, 0),
    ] {
        let room = Room {
            plan,
            scratch,
            words,
        };
        let left = agree(trial, task, &room)?;
        same("number", left.number, number)?;
    }
    Ok(())
}

/// Nothing wraps: 1,023 steps of 65,535, beside a way that costs one less; at
/// the full percent, and at the greatest.
fn largest_costs(trial: &mut Trial) -> Verdict {
    for cost in [65_535, 65_534] {
        for (percent, times) in [(100, 1), (200, 2)] {
            let task = long_plans::counter(10, 3, |o| if o == 2 { cost } else { 65_535 });
            let task = task.at_percent(percent);
            let room = Room::of(&task, 1023);
            let left = agree(trial, &task, &room)?;
            same("cost", left.cost, 1023 * times * u64::from(cost))?;
        }
    }
    Ok(())
}

/// The charge is compared and not the cost: a counter with two operators, of
/// which one is cheaper before the percent and the other after it.
fn charges_decide(trial: &mut Trial) -> Verdict {
    for (prices, number, charge) in [
        ([(1, 100), (9, 0)], 1, 0),
        ([(1, 50), (1, 49)], 1, 0),
        ([(1, 51), (1, 50)], 0, 1),
        ([(3, 50), (2, 100)], 0, 2),
        ([(2, 150), (2, 149)], 0, 3),
        ([(3, 100), (1, 200)], 1, 2),
        ([(65_535, 101), (65_535, 100)], 1, 65_535),
        ([(65_535, 50), (32_769, 100)], 0, 32_768),
        ([(65_535, 200), (65_535, 199)], 1, 130_415),
    ] {
        let mut task = long_plans::counter(4, 2, |o| prices[usize::from(o)].0);
        for (o, (_, percent)) in prices.into_iter().enumerate() {
            task.set_percent(o, percent);
        }
        let room = Room::of(&task, 15);
        let left = agree(trial, &task, &room)?;
        same("plan", &left.plan, &vec![number; 15])?;
        same("charge", left.cost, 15 * charge)?;
    }
    Ok(())
}
