//! Compiling.

use std::hint::black_box;

use saqwillo_tests::best::compile::{self, Form, FORMS};
use saqwillo_tests::best::{Room, Rows};
use saqwillo_tests::deep::{deep_task, EFFECTS, FORMULAS};
use saqwillo_tests::examples;
use saqwillo_tests::file::LARGEST;
use saqwillo_tests::task::*;

use crate::calls::compiling as calls;
use crate::tasks;
use crate::times::{least_of_three, Report};
use crate::worst;

pub fn compare(report: Report) {
    let compiling = |name: &str, task: &Task| compiling(report, name, task);
    compiling("small", &examples::whole());
    compiling("typical", &tasks::typical(0));
    compiling("largest", &tasks::large_finished());
    compiling("most formulas", &examples::conjunctions(4094));
    compiling("most effects", &examples::many_rules(&[512, 512, 342]));
    compiling("256 operators, few touched", &tasks::few_touched());
    let [formulas, effects] = [FORMULAS[8].1, EFFECTS[2].1];
    compiling("deepest", &deep_task(formulas, effects));
    compiling("refused at the limit", &examples::conjunctions(4096));
    compiling(
        "worst found, 8 variables, 1 operator",
        &worst::worst_found(),
    );
}

/// Both sides on one task, with buffers of their own.
pub struct Pair<'a> {
    task: &'a Task,
    rows: Rows<'a>,
    tables: [Tables; 2],
    scratch: [Vec<u16>; 2],
    pub head: [u16; 6],
}

impl<'a> Pair<'a> {
    pub fn new(task: &'a Task) -> Pair<'a> {
        let length = usize::from(task.head.formula_count) + usize::from(task.head.effect_count);
        Pair {
            task,
            rows: Rows::of(task),
            tables: [Tables::zeros(&LARGEST), Tables::zeros(&LARGEST)],
            scratch: [vec![0; 2 * length], vec![0; 2 * length]],
            head: [0; 6],
        }
    }

    pub fn library(&mut self) -> u16 {
        let [tables, _] = &mut self.tables;
        let [scratch, _] = &mut self.scratch;
        calls::compile_quickly(self.task, tables, scratch, &mut self.head)
    }

    pub fn other(&mut self, form: Form) -> Result<Head, Refusal> {
        let [_, tables] = &mut self.tables;
        let [_, scratch] = &mut self.scratch;
        compile::compile(form, &self.rows, Room::of(tables), scratch)
    }

    pub fn seconds(&mut self, form: Form) -> f64 {
        least_of_three(|| {
            let _ = black_box(self.other(form));
        })
    }

    /// The form that is the quicker on this task.
    pub fn quicker(&mut self) -> Form {
        let [cleared, kept] = FORMS.map(|form| self.seconds(form));
        if cleared < kept {
            Form::Cleared
        } else {
            Form::Kept
        }
    }

    /// One call of both: the same answer and the same tables.
    pub fn check(&mut self) {
        let number = self.library();
        let other = self.other(Form::Kept);
        assert_eq!(number, other.err().unwrap_or(0));
        assert_eq!(Head::from_words(self.head), other.unwrap_or_default());
        assert!(self.tables[0] == self.tables[1]);
    }
}

/// The quicker form is compared, and the one that keeps nothing beside it.
fn compiling(report: Report, name: &str, task: &Task) {
    let (mut ours, mut theirs) = (Pair::new(task), Pair::new(task));
    let form = match report {
        Report::Times => theirs.quicker(),
        Report::Counts => Form::Kept,
    };
    if report == Report::Times {
        ours.check();
    }
    let [_, _, f, e, _, _] = theirs.other(form).unwrap_or_default().words();
    let mut compare = |name: &str, form: Form| {
        report.compare(
            name,
            || {
                ours.library();
            },
            || {
                let _ = black_box(theirs.other(form));
            },
        );
    };
    compare(&format!("compile {name}, to {f} + {e}"), form);
    if form == Form::Kept {
        compare("  beside the form that keeps nothing", Form::Cleared);
    }
}
