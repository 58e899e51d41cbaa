//! Runs named tests and counts their cases; prints a line for each test and
//! a last line with the totals.

use std::panic::{catch_unwind, AssertUnwindSafe};

use crate::random::Random;
use crate::task::Task;

const DEFAULT_SEED: u64 = 20_261_115;

/// `Err` holds a dump of the failing case.
pub type Verdict = Result<(), String>;

/// What a test gets: its random numbers and its counter of cases.
pub struct Trial {
    pub random: Random,
    cases: u64,
}

impl Trial {
    /// Counts one case; called before the case is looked at.
    pub fn case(&mut self) {
        self.cases += 1;
    }
}

pub struct Test {
    pub group: &'static str,
    pub name: &'static str,
    pub body: fn(&mut Trial) -> Verdict,
}

struct Options {
    seed: u64,
    groups: Vec<String>,
}

/// Runs the tests that the program's arguments ask for; the exit status.
pub fn run(tests: &[Test]) -> i32 {
    let options = match options(tests) {
        Ok(options) => options,
        Err(message) => {
            eprintln!("{message}");
            return 2;
        }
    };
    let (mut passed, mut failed) = (0, 0);
    for test in tests {
        let wanted = options.groups.is_empty() || options.groups.iter().any(|g| g == test.group);
        if !wanted {
            continue;
        }
        if run_one(test, options.seed) {
            passed += 1;
        } else {
            failed += 1;
        }
    }
    println!("{passed} passed, {failed} failed");
    i32::from(failed > 0)
}

/// `[--seed N] [GROUP ...]`
fn options(tests: &[Test]) -> Result<Options, String> {
    let mut options = Options {
        seed: DEFAULT_SEED,
        groups: Vec::new(),
    };
    let mut arguments = std::env::args().skip(1);
    while let Some(argument) = arguments.next() {
        if argument == "--seed" {
            let seed = arguments.next().and_then(|text| text.parse().ok());
            options.seed = seed.ok_or("--seed needs a number")?;
        } else if tests.iter().any(|test| test.group == argument) {
            options.groups.push(argument);
        } else {
            return Err(format!("no group is called {argument}"));
        }
    }
    Ok(options)
}

fn run_one(test: &Test, seed: u64) -> bool {
    let name = format!("{}/{}", test.group, test.name);
    let mut trial = Trial {
        random: Random::named(seed, &name),
        cases: 0,
    };
    let caught = catch_unwind(AssertUnwindSafe(|| (test.body)(&mut trial)));
    let verdict = match caught {
        Ok(Ok(())) if trial.cases == 0 => Err("no case was tried".to_string()),
        Ok(verdict) => verdict,
        Err(_) => Err("the test itself panicked".to_string()),
    };
    match verdict {
        Ok(()) => {
            println!("ok {name} ({} cases)", trial.cases);
            true
        }
        Err(dump) => {
            println!("FAILED {name} seed={seed} case={}", trial.cases);
            println!("{dump}");
            false
        }
    }
}

/// Fails with both values unless they are equal.
pub fn same<T: PartialEq + std::fmt::Debug>(what: &str, found: T, expected: T) -> Verdict {
    if found == expected {
        return Ok(());
    }
    Err(format!(
        "  {what}\n  found {found:?}\n  expected {expected:?}"
    ))
}

/// A task in words, for a failing case.
pub fn dump_task(task: &Task) -> String {
    let [v, w, f, e, o, goal] = task.head.words();
    let tables = &task.tables;
    [
        format!("  head V={v} W={w} F={f} E={e} O={o} goal={goal}"),
        format!("  initial {}", list(&tables.initial)),
        format!("  twins {}", list(&tables.twins)),
        format!("  formulas {}", list(&tables.formulas)),
        format!("  effects {}", list(&tables.effects)),
        format!("  operators {}", list(&tables.operators)),
    ]
    .join("\n")
}

/// Length and values; a long list is cut.
pub fn list<T: std::fmt::Debug>(values: &[T]) -> String {
    const SHOWN: usize = 60;
    if values.len() <= SHOWN {
        return format!("[{}] {values:?}", values.len());
    }
    format!("[{}] {:?} ...", values.len(), &values[..SHOWN])
}
