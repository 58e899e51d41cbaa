//! Damaged tables: each refusal of the check alone, and random damage.

use crate::random::Random;
use crate::task::*;

/// The refusals of the check in 01's order, 24 (02, K2) after 12 of the same
/// row: the damages by 24 are in the last operator row.
pub const ORDER: [Refusal; 9] = [6, 7, 5, 8, 9, 10, 11, 12, 24];

/// A damage that alone brings exactly `number`.
pub struct Damage {
    pub number: Refusal,
    pub name: &'static str,
    pub inflict: fn(&mut Task),
}

/// The place of a damage's number in 01's order.
pub fn place(number: Refusal) -> usize {
    let found = ORDER.iter().position(|&other| other == number);
    found.expect("a number of the check")
}

/// A valid task on which every damage below has room.
pub fn base() -> Task {
    let head = Head::from_words([7, 3, 6, 5, 3, 4]);
    let tables = Tables {
        initial: vec![0, 1, 1, 0, 1, 0, 1],
        twins: vec![3, 0, 2],
        formulas: vec![
            2, 6, 0, 3, 0, 0, 4, 1, 0, 5, 0, 2, 6, 3, 1, 7, 4, 0, //
        ],
        effects: vec![1, 6, 0, 2, 0, 0, 3, 1, 0, 4, 5, 2, 0, 0, 0],
        operators: vec![5, 4, 65_535, 200, 0, 0, 0, 100, 2, 3, 7, 50],
    };
    Task { head, tables }
}

macro_rules! damage {
    ($number:literal, $name:literal, |$task:ident| $body:expr) => {
        Damage {
            number: $number,
            name: $name,
            inflict: |$task: &mut Task| {
                $body;
            },
        }
    };
}

/// Damages of `base`.
pub fn damages() -> Vec<Damage> {
    let mut all = head_damages();
    all.extend(length_damages());
    all.extend(row_damages());
    all
}

fn head_damages() -> Vec<Damage> {
    vec![
        damage!(6, "V 513", |t| t.head.variables = 513),
        damage!(6, "W above V - W", |t| t.head.twin_count = 4),
        damage!(6, "F 0", |t| t.head.formula_count = 0),
        damage!(6, "F 4097", |t| t.head.formula_count = 4097),
        damage!(6, "E 4097", |t| t.head.effect_count = 4097),
        damage!(6, "O 257", |t| t.head.operator_count = 257),
        damage!(7, "goal F", |t| t.head.goal = 6),
        damage!(7, "goal 65535", |t| t.head.goal = 65_535),
    ]
}

fn length_damages() -> Vec<Damage> {
    vec![
        damage!(5, "initial short", |t| t.tables.initial.pop()),
        damage!(5, "no initial", |t| t.tables.initial.clear()),
        damage!(5, "twins short", |t| t.tables.twins.pop()),
        damage!(5, "formulas one short", |t| t.tables.formulas.pop()),
        damage!(5, "formulas a row short", |t| t
            .tables
            .formulas
            .truncate(15)),
        damage!(5, "no formulas", |t| t.tables.formulas.clear()),
        damage!(5, "effects one short", |t| t.tables.effects.pop()),
        damage!(5, "no effects", |t| t.tables.effects.clear()),
        damage!(5, "operators one short", |t| t.tables.operators.pop()),
        damage!(5, "no operators", |t| t.tables.operators.clear()),
    ]
}

fn row_damages() -> Vec<Damage> {
    vec![
        damage!(8, "first byte 2", |t| t.tables.initial[0] = 2),
        damage!(8, "last byte 255", |t| t.tables.initial[6] = 255),
        damage!(9, "original V - W", |t| t.tables.twins[0] = 4),
        damage!(9, "original 65535", |t| t.tables.twins[2] = 65_535),
        damage!(9, "named just before", |t| t.tables.twins[2] = 0),
        damage!(9, "named long before", |t| t.tables.twins[2] = 3),
        damage!(10, "kind 8", |t| t.tables.formulas[0] = 8),
        damage!(10, "variable V", |t| t.tables.formulas[1] = 7),
        damage!(10, "not itself", |t| t.tables.formulas[4] = 1),
        damage!(10, "b not 0", |t| t.tables.formulas[2] = 1),
        damage!(10, "last row", |t| t.tables.formulas[17] = 5),
        damage!(11, "kind 5", |t| t.tables.effects[0] = 5),
        damage!(11, "variable V", |t| t.tables.effects[1] = 7),
        damage!(11, "both itself", |t| t.tables.effects[8] = 2),
        damage!(11, "under formula F", |t| t.tables.effects[10] = 6),
        damage!(11, "last row", |t| t.tables.effects[14] = 1),
        damage!(12, "precondition F", |t| t.tables.operators[0] = 6),
        damage!(12, "effect E", |t| t.tables.operators[5] = 5),
        damage!(12, "last row", |t| t.tables.operators[8] = 65_535),
        damage!(24, "percent 201", |t| t.tables.operators[11] = 201),
        damage!(24, "percent 65535", |t| t.tables.operators[11] = 65_535),
    ]
}

/// Changes one word, byte or length at random.
pub fn any(random: &mut Random, task: &mut Task) {
    match random.below(12) {
        0 => head_word(random, task),
        1 => initial_byte(random, task),
        2 => one_length(random, task),
        3 => one_word(random, &task.head.clone(), &mut task.tables.twins),
        4..=6 => one_word(random, &task.head.clone(), &mut task.tables.formulas),
        7..=9 => one_word(random, &task.head.clone(), &mut task.tables.effects),
        _ => one_word(random, &task.head.clone(), &mut task.tables.operators),
    }
}

fn head_word(random: &mut Random, task: &mut Task) {
    let mut words = task.head.words();
    let at = random.below(6);
    words[at] = changed(random, &task.head, words[at]);
    task.head = Head::from_words(words);
}

fn initial_byte(random: &mut Random, task: &mut Task) {
    if !task.tables.initial.is_empty() {
        let at = random.below(task.tables.initial.len());
        task.tables.initial[at] = random.pick(&[0, 1, 2, 3, 128, 254, 255]);
    }
}

fn one_word(random: &mut Random, head: &Head, table: &mut [u16]) {
    if !table.is_empty() {
        let at = random.below(table.len());
        table[at] = changed(random, head, table[at]);
    }
}

/// Shortens or lengthens one table; what is added is garbage.
fn one_length(random: &mut Random, task: &mut Task) {
    let add = random.chance(50);
    let count = random.between(1, 4);
    let table = random.below(5);
    if table == 4 {
        let initial = &mut task.tables.initial;
        let length = initial.len();
        initial.truncate(length.saturating_sub(count));
        if add {
            initial.resize(length + count, random.byte());
        }
        return;
    }
    let table = &mut task.tables.word_tables()[table];
    let length = table.len();
    if add {
        table.extend((0..count).map(|_| random.word()));
    } else {
        table.truncate(length.saturating_sub(count));
    }
}

/// Another value near the old one, or near one of the head's counts.
fn changed(random: &mut Random, head: &Head, old: u16) -> u16 {
    let count = random.pick(&head.words());
    match random.below(9) {
        0 => old.wrapping_add(1),
        1 => old.wrapping_sub(1),
        2 => count,
        3 => count.wrapping_sub(1),
        4 => count.wrapping_add(1),
        5 => random.below(10) as u16,
        6 => random.pick(&[0, 255, 256, 511, 512, 4096, 32_768, 65_535]),
        7 => random.pick(&[0, 50, 99, 100, 101, 200, 201, 300]),
        _ => random.word(),
    }
}

/// Changes, cuts or adds a byte of a file at random; some of the bytes make
/// percents that are refused, or just not.
pub fn file(random: &mut Random, file: &mut Vec<u8>) {
    let at = random.below(file.len() + 1);
    match random.below(9) {
        0 => file.truncate(at),
        1 => file.insert(at, random.byte()),
        2 if at < file.len() => {
            file.remove(at);
        }
        3 if at < file.len() => file[at] = random.pick(&[0, 1, 2, 255]),
        4 if at < file.len() => file[at] = file[at].wrapping_add(1),
        5 if at < file.len() => file[at] = random.pick(&[8, 100, 200, 201]),
        _ if at < file.len() => file[at] ^= 1 << random.below(8),
        _ => file.push(random.byte()),
    }
}
