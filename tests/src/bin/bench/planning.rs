//! Cheapest plans of ten variables.

use saqwillo_tests::best::{cheapest, Rows};
use saqwillo_tests::cheapest::Room;
use saqwillo_tests::long_plans;
use saqwillo_tests::task::*;

use crate::calls::planning as calls;
use crate::times::Report;

pub fn compare(report: Report) {
    let tasks = [
        ("256 operators", long_plans::flips(10, |o| o, true)),
        ("no plan", long_plans::flips(10, |o| o, false)),
        ("all costs 0", long_plans::flips(10, |_| 0, false)),
        ("1,023 steps", long_plans::counter(10, 1, |_| 1)),
        ("1,023 steps, 256 ways", long_plans::counter(10, 256, |_| 1)),
        ("cheaper and cheaper", long_plans::cheaper_and_cheaper(10)),
        ("4,096 rows", long_plans::largest_rows(true)),
        ("4,096 rows, no plan", long_plans::largest_rows(false)),
        ("2 lanes that tie", long_plans::lanes(1, 9, false)),
        ("4 lanes that tie", long_plans::lanes(2, 8, false)),
        ("8 lanes that tie", long_plans::lanes(3, 7, false)),
        ("a fan behind 2 lanes", long_plans::fan(false)),
        ("a fan with ways apart", long_plans::fan(true)),
    ];
    for (name, task) in tasks {
        planning(report, &format!("plan: {name}"), &task);
    }
}

fn planning(report: Report, name: &str, task: &Task) {
    let rows = Rows::of(task);
    let room = Room::of(task, 1023);
    let (mut ours, mut theirs) = (vec![0; room.plan], vec![0; room.plan]);
    let (mut scratch, mut words) = (vec![0; room.scratch], vec![0; room.words]);
    let mut result = [0; 2];
    let number = calls::cheapest_quickly(task, &mut ours, &mut scratch, &mut words, &mut result);
    let other = cheapest::cheapest(&rows, &mut theirs, &mut scratch, &mut words);
    match other {
        Ok(found) => assert_eq!(result, [u64::from(found.steps), found.cost]),
        Err(refused) => assert_eq!(number, refused),
    }
    assert!(ours == theirs);
    let (mut other_scratch, mut other_words) = (scratch.clone(), words.clone());
    report.compare(
        name,
        || {
            calls::cheapest_quickly(task, &mut ours, &mut scratch, &mut words, &mut result);
        },
        || {
            let other =
                cheapest::cheapest(&rows, &mut theirs, &mut other_scratch, &mut other_words);
            let _ = std::hint::black_box(other);
        },
    );
}
