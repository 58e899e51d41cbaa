//! Runs of 65,535 steps.

use saqwillo_tests::best::{run, Rows};
use saqwillo_tests::examples;
use saqwillo_tests::task::*;

use crate::calls::running as calls;
use crate::tasks;
use crate::times::Report;

/// So many steps are counted: callgrind is slow.
const COUNTED: usize = 2048;

pub fn compare(report: Report) {
    let steps = match report {
        Report::Times => 65_535,
        Report::Counts => COUNTED,
    };
    let limits = tasks::run_at_the_limits();
    let sequence = tasks::sequence(steps, limits.head.operator_count);
    let name = format!("run at the limits, {steps} steps");
    running(report, &name, &limits, &sequence);
    let one = &sequence[..1];
    running(report, "check and one step at the limits", &limits, one);
    // the first two operators of the running example always go
    let small = examples::running();
    let sequence = tasks::sequence(steps, 2);
    let name = format!("run a small task, {steps} steps");
    if let Some(seconds) = running(report, &name, &small, &sequence) {
        println!(
            "{:<58} {:>10.2} million steps a second",
            "  the library's",
            1e-6 * steps as f64 / seconds
        );
    }
}

fn running(report: Report, name: &str, task: &Task, sequence: &[u16]) -> Option<f64> {
    let rows = Rows::of(task);
    let length = usize::from(task.head.formula_count) + usize::from(task.head.effect_count);
    let (mut scratch, mut result) = (vec![0; length], [0; 6]);
    let mut ours = task.tables.initial.clone();
    let mut theirs = ours.clone();
    let number = calls::run_quickly(task, &mut ours, sequence, &mut scratch, &mut result);
    let other = run::run(&rows, &mut theirs, sequence, &mut scratch).expect("no refusal");
    assert_eq!((number, other.stop), (0, None));
    assert_eq!(result[..2], [u64::from(other.steps), other.cost]);
    assert!(ours == theirs);
    let mut other_scratch = scratch.clone();
    report.compare(
        name,
        || {
            calls::run_quickly(task, &mut ours, sequence, &mut scratch, &mut result);
        },
        || {
            let other = run::run(&rows, &mut theirs, sequence, &mut other_scratch);
            let _ = std::hint::black_box(other);
        },
    )
}
