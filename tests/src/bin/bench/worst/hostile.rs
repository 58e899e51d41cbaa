//! Tasks made or found by a search to be slow whatever is kept for the next
//! operator: their times beside the other implementation's form that keeps
//! all.

use saqwillo_tests::best::compile::Form;
use saqwillo_tests::draft::Draft;
use saqwillo_tests::shared_core::{SharedCore, FOUND_CHAIN, FOUND_NET, IDLE_WHENS};
use saqwillo_tests::task::*;

use super::seconds;
use crate::compiling::Pair;
use crate::times::readable;

/// Rows "under a variable" in place of "under true".
const WHENS: SharedCore = SharedCore {
    whens: 100,
    idle_whens: 0,
    ..IDLE_WHENS
};

/// Rows "both", each of two of the dozen before it; two are entered.
const NET: SharedCore = SharedCore {
    idle_whens: 0,
    left: 12,
    right: 12,
    entered: 2,
    entered_last: 2,
    near_the_top: 100,
    ..IDLE_WHENS
};

/// Rows "both" of the one before it and one further back.
const CHAIN: SharedCore = SharedCore { left: 1, ..NET };

/// Half of the atoms stand under a second variable.
const fn under_two(core: SharedCore) -> SharedCore {
    SharedCore {
        conditions: 2,
        others: 500,
        ..core
    }
}

/// Some atoms in a thousand do.
const fn few_apart(core: SharedCore) -> SharedCore {
    SharedCore {
        conditions: 2,
        others: 5,
        ..core
    }
}

const CORES: [(&str, SharedCore); 14] = [
    ("\"when true\" above all atoms", IDLE_WHENS),
    ("the same, atoms under two variables", under_two(IDLE_WHENS)),
    ("\"when\" above atoms, few under another", few_apart(WHENS)),
    ("\"when\" above atoms under two variables", under_two(WHENS)),
    ("net above all atoms", NET),
    ("net, few atoms under another variable", few_apart(NET)),
    ("net, atoms under two variables", under_two(NET)),
    (
        "chain, up to 160 back, 3 rows entered",
        SharedCore {
            atoms: 512,
            right: 160,
            entered: 3,
            entered_last: 3,
            ..CHAIN
        },
    ),
    (
        "chain, up to 160 back, under two variables",
        SharedCore {
            right: 160,
            ..under_two(CHAIN)
        },
    ),
    (
        "chain, up to 600 back, under two variables",
        SharedCore {
            right: 600,
            ..under_two(CHAIN)
        },
    ),
    (
        "chain, the last operator enters 360 rows",
        SharedCore {
            atoms: 1000,
            conditions: 1,
            entered_last: 360,
            own_when: false,
            right: 40,
            ..CHAIN
        },
    ),
    ("found: chain, up to 2,000 back, 6 entered", FOUND_CHAIN),
    ("found: net, up to 462 back, few \"when\"", FOUND_NET),
    (
        "found: net, up to 793 back, 1,024 atoms",
        SharedCore {
            conditions: 1,
            operators: 217,
            own_when: false,
            left: 793,
            right: 418,
            near_the_top: 20,
            seed: 3_319_179_048_558_896_947,
            ..NET
        },
    ),
];

/// Every operator sets and clears so many variables, through as many rows
/// "under true" as there is room for; those that clear stand under a variable,
/// so that each variable has three conditions, or under none, and two of them fold.
fn set_and_cleared(variables: u16, under: bool) -> Task {
    let mut draft = Draft::new(&[0; MOST_VARIABLES]);
    let yes = draft.yes();
    let condition = draft.variable(0);
    let mut parts = Vec::new();
    for v in 0..variables {
        let (set, clear) = (draft.set(v), draft.clear(v));
        parts.push(set);
        parts.push(if under {
            draft.under(condition, clear)
        } else {
            clear
        });
    }
    let mut top = draft.all(&parts);
    while usize::from(top) + 1 < MOST_EFFECTS {
        top = draft.under(yes, top);
    }
    for i in 0..MOST_OPERATORS as u16 {
        draft.operator(yes, top - i, i);
    }
    draft.finish(yes)
}

fn all() -> Vec<(&'static str, Task)> {
    let mut all: Vec<_> = CORES.map(|(name, core)| (name, core.task())).into();
    all.extend([
        (
            "8 variables set, and cleared under one",
            set_and_cleared(8, true),
        ),
        (
            "512 variables set, and cleared under one",
            set_and_cleared(512, true),
        ),
        ("8 variables set and cleared", set_and_cleared(8, false)),
    ]);
    all
}

/// Seconds of both sides, which must compile the task to the same tables, and
/// the formula and effect rows of those.
struct Times {
    library: f64,
    other: f64,
    rows: [u16; 2],
}

impl Times {
    fn of(task: &Task) -> Times {
        let mut pair = Pair::new(task);
        pair.check();
        let [_, _, f, e, _, _] = pair.head;
        Times {
            library: seconds(task),
            other: pair.seconds(Form::Kept),
            rows: [f, e],
        }
    }

    fn print(&self, name: &str, last: &str) {
        println!(
            "{name:<58} {:>10} {:>10} {:>6.2}   {last}",
            readable(self.library),
            readable(self.other),
            self.library / self.other
        );
    }
}

/// One line for each task if asked, and one for the slowest.
pub fn print(each: bool) {
    let mut timed = Vec::new();
    for (name, task) in all() {
        let times = Times::of(&task);
        if each {
            let [f, e] = times.rows;
            times.print(&format!("{name}, to {f} + {e}"), "");
        }
        timed.push((name, times));
    }
    timed.sort_by(|(_, one), (_, other)| one.library.total_cmp(&other.library));
    let (name, times) = timed.last().expect("some tasks");
    times.print(
        &format!("the slowest of {} hostile files", timed.len()),
        name,
    );
}
