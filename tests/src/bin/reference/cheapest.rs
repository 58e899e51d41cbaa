//! Group `cheapest`: the quick search for the cheapest plan against trying
//! all lists; the order of refusals.

use saqwillo_tests::best::{cheapest, Rows};
use saqwillo_tests::cheapest::{by_trying, planned, Plan, Planned, Room};
use saqwillo_tests::draft::Draft;
use saqwillo_tests::examples;
use saqwillo_tests::generate::{self, Shape};
use saqwillo_tests::harness::{dump_task, Test, Trial, Verdict};
use saqwillo_tests::moves;
use saqwillo_tests::task::*;

use crate::same;

pub fn tests() -> Vec<Test> {
    let test = |name, body| Test {
        group: "cheapest",
        name,
        body,
    };
    vec![
        test("quick search against all lists", search_against_lists),
        test("ties", ties),
        test("charges decide", charges_decide),
        test("examples", worked_examples),
        test("order of refusals", order_of_refusals),
    ]
}

/// What the quick form leaves of dirty buffers.
pub fn quickly(task: &Task, room: &Room) -> Planned {
    let mut plan = vec![7; room.plan];
    let (mut scratch, mut words) = (vec![7; room.scratch], vec![7; room.words]);
    let answer = cheapest::cheapest(&Rows::of(task), &mut plan, &mut scratch, &mut words);
    let (number, steps, cost) = match answer {
        Ok(found) => (0, found.steps, found.cost),
        Err(number) => (number, 0, 0),
    };
    Planned {
        number,
        steps,
        cost,
        plan,
        scratch,
        words,
    }
}

/// Few states, few operators, few costs.
fn tiny_task(trial: &mut Trial) -> Task {
    let random = &mut trial.random;
    let variables = random.pick(&[0, 1, 2, 2, 2, 3, 3, 3]);
    let operators = random.below(if variables < 3 { 6 } else { 5 });
    let costs = random.pick(&[1, 2, 3, 10]);
    match random.below(4) {
        0 => return moves::task(random, variables, operators, costs),
        1 | 2 => return moves::line(random, variables, operators, costs),
        _ => {}
    }
    let twins = random.pick(&[0, 0, variables / 2]);
    let shape = Shape {
        variables,
        twins,
        formulas: random.between(1, 12),
        effects: random.between(1, 10),
        operators,
        ..Shape::leaning(random)
    };
    generate::task(random, &shape)
}

/// A list of 2^V numbers or more comes to some state twice, so shorter ones
/// suffice; small tasks try one more.
fn search_against_lists(trial: &mut Trial) -> Verdict {
    let mut seen = [0; 8];
    let mut none = 0;
    for _ in 0..3_000 {
        trial.case();
        let task = tiny_task(trial);
        let states = 1usize << task.head.variables;
        let longest = if states < 8 { states } else { 7 };
        let plan = by_trying(&task, longest);
        let length = plan.as_ref().map_or(0, |plan| plan.numbers.len());
        let room = Room::of(&task, trial.random.pick(&[length, length + 3, 20]));
        let wanted = planned(&task, &room, |_| plan.clone());
        same(&dump_task(&task), quickly(&task, &room), wanted)?;
        match plan {
            Some(plan) => seen[plan.numbers.len()] += 1,
            None => none += 1,
        }
    }
    let enough = none > 500 && seen.iter().all(|&count| count > 5);
    same(&format!("{none} none, {seen:?}"), enough, true)
}

/// Cost and percent.
type Price = (u16, u16);

/// Two states in a row: an operator to the first, one on from there, and two
/// straight to the second; both forms must find this plan.
fn two_states(trial: &mut Trial, prices: [Price; 4], numbers: &[u16], cost: u64) -> Verdict {
    trial.case();
    let mut draft = Draft::new(&[0, 0]);
    let (yes, v0, v1) = (draft.yes(), draft.variable(0), draft.variable(1));
    let (first, second) = (draft.set(0), draft.set(1));
    let rows = [(yes, first), (v0, second), (yes, second), (yes, second)];
    for ((precondition, effect), (cost, percent)) in rows.into_iter().zip(prices) {
        draft.operator_row([precondition, effect, cost, percent]);
    }
    let task = draft.finish(v1);
    let room = Room::of(&task, 3);
    let plan = Plan {
        numbers: numbers.to_vec(),
        cost,
    };
    let wanted = planned(&task, &room, |_| Some(plan.clone()));
    let tried = planned(&task, &room, |task| by_trying(task, 4));
    same("quick form", quickly(&task, &room), wanted.clone())?;
    same("all lists", tried, wanted)
}

/// Operators that tie in cost, in cost and steps.
fn ties(trial: &mut Trial) -> Verdict {
    for (costs, numbers, cost) in [
        // all the same: one step before two, the lowest number first
        ([0, 0, 0, 0], &[2][..], 0),
        // two steps cost less than one
        ([1, 1, 3, 3], &[0, 1], 2),
        // two steps cost the same as one
        ([1, 2, 3, 3], &[2], 3),
        ([1, 2, 4, 3], &[3], 3),
    ] {
        let prices = costs.map(|cost| (cost, FULL_PERCENT));
        two_states(trial, prices, numbers, cost)?;
    }
    Ok(())
}

/// The charge is compared, rounded step by step, and not the cost.
fn charges_decide(trial: &mut Trial) -> Verdict {
    for (prices, numbers, cost) in [
        // free of charge, whatever the cost
        ([(1, 100), (1, 100), (9, 0), (65_535, 0)], &[2][..], 0),
        ([(9, 0), (9, 0), (1, 49), (1, 50)], &[2], 0),
        ([(9, 0), (9, 0), (1, 50), (1, 51)], &[0, 1], 0),
        // a half upwards: two halves are charged 2
        ([(1, 50), (1, 50), (2, 100), (3, 50)], &[2], 2),
        ([(1, 50), (1, 50), (3, 100), (5, 50)], &[0, 1], 2),
        // the charges tie: the lowest number
        ([(5, 100), (5, 100), (3, 50), (2, 100)], &[2], 2),
        // above 100
        ([(1, 100), (1, 100), (1, 200), (1, 150)], &[2], 2),
        ([(1, 100), (1, 100), (2, 150), (2, 149)], &[0, 1], 2),
        ([(1, 200), (1, 200), (65_535, 200), (4, 100)], &[3], 4),
    ] {
        two_states(trial, prices, numbers, cost)?;
    }
    Ok(())
}

/// The plans that examples/README.md names, by trying all lists of at most
/// four numbers and by the quick form.
fn worked_examples(trial: &mut Trial) -> Verdict {
    for (task, numbers, cost) in [
        (examples::whole(), vec![0], 3),
        (examples::running(), vec![0, 2, 0, 4], 12),
        (examples::bicycle(), vec![1, 0, 2, 3], 4),
        (examples::flat_effect(), vec![], 0),
        (examples::effect_normal_form(), vec![0], 1),
        (examples::journey(), vec![2, 4], 4),
        (examples::percents(), vec![1, 4], 2),
    ] {
        trial.case();
        let plan = Some(Plan { numbers, cost });
        same("all lists", &by_trying(&task, 4), &plan)?;
        same("quick form", &cheapest::plan_of(&task), &plan)?;
    }
    Ok(())
}

/// The tables' own, 21, 14 for either scratch, 22, 23.
fn order_of_refusals(trial: &mut Trial) -> Verdict {
    // true, false; nothing but an empty effect
    let mut small = generate::plain(Head::from_words([2, 0, 2, 1, 0, 1]));
    small.set_formula(1, [formula::FALSE, 0, 0]);
    let mut broken = generate::plain(Head::from_words([11, 0, 2, 1, 0, 2]));
    let large = generate::plain(Head::from_words([11, 0, 2, 1, 0, 1]));
    broken.head.goal = 2;
    let mut draft = Draft::new(&[0]);
    let (yes, v0, set) = (draft.yes(), draft.variable(0), draft.set(0));
    draft.operator(yes, set, 5);
    let one = draft.finish(v0);
    for (task, plan, scratch, words, expected) in [
        (&broken, 0, 0, 0, 7),
        (&large, 0, 0, 0, 21),
        (&large, 9, 99, 9999, 21),
        (&small, 0, 2, 16, 14),
        (&small, 0, 3, 15, 14),
        (&small, 0, 3, 16, 22),
        (&one, 0, 3, 8, 23),
        (&one, 1, 3, 7, 14),
        (&one, 1, 3, 8, 0),
        (&one, 4, 9, 90, 0),
    ] {
        trial.case();
        let room = Room {
            plan,
            scratch,
            words,
        };
        let left = planned(task, &room, |task| by_trying(task, 4));
        same("number", left.number, expected)?;
        same("left", quickly(task, &room), left)?;
    }
    Ok(())
}
