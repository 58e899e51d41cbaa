//! Group `tables`: every kind of row at every edge.

use saqwillo_tests::damage;
use saqwillo_tests::generate;
use saqwillo_tests::harness::{Test, Trial, Verdict};
use saqwillo_tests::task::{full_price, Head, Task};

use crate::tables::{agree, expect};

pub fn tests() -> Vec<Test> {
    let test = |name, body| Test {
        group: "tables",
        name,
        body,
    };
    vec![
        test("formula rows at the edges", formula_rows),
        test("effect rows at the edges", effect_rows),
        test("operator rows at the edges", operator_rows),
        test("two bad rows", two_bad_rows),
        test("12 and 24 row by row", references_and_percents),
        test("initial bytes", initial_bytes),
        test("all short lists of originals", short_twin_lists),
        test("twins named before", twins_named_before),
    ]
}

const KINDS: [u16; 14] = [0, 1, 2, 3, 4, 5, 6, 7, 8, 9, 15, 16, 256, 65_535];

/// Words around the row's own number, the given counts, and the ends.
fn edge_words(number: u16, counts: &[u16]) -> Vec<u16> {
    let mut all = vec![0, 1, 2, 65_534, 65_535];
    for &count in counts.iter().chain([&number]) {
        all.extend([count.wrapping_sub(1), count, count.wrapping_add(1)]);
    }
    all.sort_unstable();
    all.dedup();
    all
}

fn plain(words: [u16; 6]) -> Task {
    generate::plain(Head::from_words(words))
}

fn formula_rows(trial: &mut Trial) -> Verdict {
    for v in [0, 1, 2, 5, 512] {
        for number in [0, 1, 2, 3, 7] {
            for count in [number + 1, number + 3] {
                let mut task = plain([v, v / 2, count, 0, 0, 0]);
                let edges = edge_words(number, &[v, v - v / 2, count]);
                for kind in KINDS {
                    every_pair(trial, &edges, &mut |trial, a, b| {
                        task.set_formula(usize::from(number), [kind, a, b]);
                        agree(trial, &task)
                    })?;
                }
            }
        }
    }
    Ok(())
}

fn effect_rows(trial: &mut Trial) -> Verdict {
    for (v, f) in [(0, 1), (1, 2), (5, 4), (4, 9), (512, 12)] {
        for number in [0, 1, 2, 3, 7] {
            for count in [number + 1, number + 3] {
                let mut task = plain([v, v / 2, f, count, 0, 0]);
                let edges = edge_words(number, &[v, f, count]);
                for kind in KINDS {
                    every_pair(trial, &edges, &mut |trial, a, b| {
                        task.set_effect(usize::from(number), [kind, a, b]);
                        agree(trial, &task)
                    })?;
                }
            }
        }
    }
    Ok(())
}

/// Costs and percents, of which 201 and more are refused.
const PRICES: [(u16, u16); 12] = [
    (0, 100),
    (1, 100),
    (65_535, 100),
    (65_535, 0),
    (0, 50),
    (1, 99),
    (1, 101),
    (201, 200),
    (0, 201),
    (1, 256),
    (65_535, 32_768),
    (200, 65_535),
];

fn operator_rows(trial: &mut Trial) -> Verdict {
    for (f, e) in [(1, 1), (3, 5), (5, 3), (4096, 4096), (1, 0)] {
        for number in [0, 1, 4] {
            let mut task = plain([2, 1, f, e, number + 1, 0]);
            let edges = edge_words(number, &[f, e, 2]);
            for (cost, percent) in PRICES {
                every_pair(trial, &edges, &mut |trial, precondition, effect| {
                    let row = [precondition, effect, cost, percent];
                    task.set_operator(usize::from(number), row);
                    let known = e > 0 && precondition < f && effect < e;
                    let expected = match (known, percent <= 200) {
                        (false, _) => 12,
                        (true, false) => 24,
                        (true, true) => 0,
                    };
                    expect(trial, &task, expected, "operator row")
                })?;
            }
        }
    }
    Ok(())
}

fn every_pair(
    trial: &mut Trial,
    edges: &[u16],
    look: &mut dyn FnMut(&mut Trial, u16, u16) -> Verdict,
) -> Verdict {
    for &a in edges {
        for &b in edges {
            look(trial, a, b)?;
        }
    }
    Ok(())
}

/// One number for a table, wherever its bad rows stand.
fn two_bad_rows(trial: &mut Trial) -> Verdict {
    let whole = damage::base();
    for one in 0..6 {
        for other in 0..6 {
            let mut task = whole.clone();
            task.set_formula(one, [8, 0, 0]);
            task.set_formula(other, [3, other as u16, 0]);
            expect(trial, &task, 10, "two bad formulas")?;
        }
    }
    for one in 0..5 {
        for other in 0..5 {
            let mut task = whole.clone();
            task.set_effect(one, [5, 0, 0]);
            task.set_effect(other, [1, 7, 0]);
            expect(trial, &task, 11, "two bad effects")?;
            let mut task = whole.clone();
            task.set_operator(one % 3, full_price(6, 0, 0));
            task.set_operator(other % 3, full_price(0, 5, 0));
            expect(trial, &task, 12, "two bad operators")?;
        }
    }
    Ok(())
}

/// 24 comes after 12 of the same row, and before all of the next.
fn references_and_percents(trial: &mut Trial) -> Verdict {
    for count in [1, 2, 3, 256] {
        let places = [0, 1, count / 2, count - 1];
        for one in places {
            for other in places {
                if one.max(other) >= count {
                    continue;
                }
                let mut task = plain([2, 1, 3, 2, count as u16, 0]);
                for wrong in [[3, 0], [0, 2], [65_535, 65_535]] {
                    let [precondition, effect] = wrong;
                    task.set_operator(one, full_price(precondition, effect, 0));
                    task.set_percent(other, 201);
                    let expected = if one <= other { 12 } else { 24 };
                    expect(trial, &task, expected, "12 and 24")?;
                }
            }
        }
    }
    Ok(())
}

fn initial_bytes(trial: &mut Trial) -> Verdict {
    for v in [1, 2, 7, 8, 9, 63, 64, 65, 511, 512] {
        let mut task = plain([v, 0, 1, 0, 0, 0]);
        for at in 0..usize::from(v) {
            for byte in [0, 1, 2, 3, 16, 128, 254, 255] {
                task.tables.initial[at] = byte;
                let expected = if byte > 1 { 8 } else { 0 };
                expect(trial, &task, expected, "initial byte")?;
            }
            task.tables.initial[at] = at as u8 % 2;
        }
    }
    Ok(())
}

/// All lists of up to three originals, in every order.
fn short_twin_lists(trial: &mut Trial) -> Verdict {
    for w in 1..=3 {
        for spare in 0..=2 {
            let end = w + spare;
            let mut task = plain([end + w, w, 1, 0, 0, 0]);
            let choices: usize = usize::from(end) + 2;
            for code in 0..choices.pow(u32::from(w)) {
                let mut rest = code;
                for original in task.tables.twins.iter_mut() {
                    *original = (rest % choices) as u16;
                    rest /= choices;
                }
                let twins = &task.tables.twins;
                let twice = (1..twins.len()).any(|k| twins[..k].contains(&twins[k]));
                let outside = twins.iter().any(|&original| original >= end);
                let expected = if twice || outside { 9 } else { 0 };
                expect(trial, &task, expected, "originals")?;
            }
        }
    }
    Ok(())
}

/// One original named twice, near and far apart, in long lists.
fn twins_named_before(trial: &mut Trial) -> Verdict {
    for (v, w) in [(12, 5), (129, 64), (512, 256), (512, 100)] {
        let mut task = plain([v, w, 1, 0, 0, 0]);
        task.tables.twins.reverse();
        expect(trial, &task, 0, "originals downwards")?;
        for _ in 0..200 {
            let mut damaged = task.clone();
            let one = trial.random.below(usize::from(w));
            let other = trial.random.below(usize::from(w));
            damaged.tables.twins[one] = damaged.tables.twins[other];
            let expected = if one == other { 0 } else { 9 };
            expect(trial, &damaged, expected, "named twice")?;
            damaged = task.clone();
            damaged.tables.twins[one] = v - w;
            expect(trial, &damaged, 9, "a twin of a twin")?;
            damaged.tables.twins[one] = v - w - 1;
            agree(trial, &damaged)?;
        }
    }
    Ok(())
}
