//! Makes a failing task smaller while it still fails.

use crate::task::*;

/// Most tries in one shrinking.
const TRIES: usize = 4000;

/// Takes every simplification that keeps `fails` true.
pub fn shrink(task: &Task, fails: &mut dyn FnMut(&Task) -> bool) -> Task {
    let mut best = task.clone();
    let mut tries = 0;
    loop {
        let mut better = false;
        for step in 0..steps(&best) {
            let simpler = simplified(&best, step);
            if simpler == best {
                continue;
            }
            tries += 1;
            if tries > TRIES {
                return best;
            }
            if fails(&simpler) {
                best = simpler;
                better = true;
            }
        }
        if !better {
            return best;
        }
    }
}

/// 18 steps on the head, 10 on the lengths, then one for each word and byte.
fn steps(task: &Task) -> usize {
    28 + task.tables.lengths().list().iter().sum::<usize>()
}

fn simplified(task: &Task, step: usize) -> Task {
    let mut simpler = task.clone();
    match step {
        0..=17 => {
            let mut words = simpler.head.words();
            words[step % 6] = smaller(words[step % 6], step / 6);
            simpler.head = Head::from_words(words);
        }
        18..=27 => shorten(&mut simpler.tables, (step - 18) % 5, (step - 18) / 5),
        _ => zero(&mut simpler.tables, step - 28),
    }
    simpler
}

fn smaller(word: u16, how: usize) -> u16 {
    match how {
        0 => 0,
        1 => word / 2,
        _ => word.saturating_sub(1),
    }
}

fn shorten(tables: &mut Tables, table: usize, how: usize) {
    let cut = |length: usize| match how {
        0 => length / 2,
        _ => length.saturating_sub(1),
    };
    if table == 4 {
        let length = tables.initial.len();
        tables.initial.truncate(cut(length));
        return;
    }
    let table = &mut tables.word_tables()[table];
    let length = table.len();
    table.truncate(cut(length));
}

fn zero(tables: &mut Tables, at: usize) {
    let mut at = at;
    for table in tables.word_tables() {
        if at < table.len() {
            table[at] = 0;
            return;
        }
        at -= table.len();
    }
    if at < tables.initial.len() {
        tables.initial[at] = 0;
    }
}
