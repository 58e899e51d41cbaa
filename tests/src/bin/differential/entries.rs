//! Group `entries`: the four C entries against the other implementation.
//! Group `corpus`: the same on the files of examples and tests/corpus.

use saqwillo_tests::damage;
use saqwillo_tests::entries as other;
use saqwillo_tests::entry_calls as library;
use saqwillo_tests::entry_trial::{self, same_compile, same_plan, same_read, same_run};
use saqwillo_tests::examples;
use saqwillo_tests::file::file_of;
use saqwillo_tests::generate::{self, Shape};
use saqwillo_tests::harness::{same, Test, Trial, Verdict};
use saqwillo_tests::long_plans;
use saqwillo_tests::moves;
use saqwillo_tests::random::Random;
use saqwillo_tests::stored;
use saqwillo_tests::task::{Head, Task};

pub fn tests() -> Vec<Test> {
    let test = |name, body| Test {
        group: "entries",
        name,
        body,
    };
    vec![
        test("worked examples", worked_examples),
        test("all lengths", all_lengths),
        test("every beginning", every_beginning),
        test("every byte changed", every_byte_changed),
        test("shortest files", shortest_files),
        test("random files", random_files),
        test("damaged files", damaged_files),
        test("damaged twice", damaged_twice),
        test("random bytes", random_bytes),
        test("large files", large_files),
        test("limits of compiling", limits_of_compiling),
        test("order of refusals", order_of_refusals),
        test("long sequences", long_sequences),
        test("lengths where small tables end", where_small_tables_end),
        test("source and compiled alike", alike),
        test("plans of moves", plans_of_moves),
        test("the longest plans", longest_plans),
        test("planning's refusals", refused_plans),
        test("source and compiled plan alike", planned_alike),
        Test {
            group: "corpus",
            name: "files",
            body: corpus,
        },
    ]
}

fn file(task: &Task) -> Vec<u8> {
    file_of(&task.head, &task.tables)
}

fn all_examples() -> Vec<Task> {
    vec![
        examples::smallest(),
        examples::whole(),
        examples::running(),
        examples::bicycle(),
        examples::flat_effect(),
        examples::effect_normal_form(),
        examples::journey(),
        examples::percents(),
        examples::set_and_clear(),
        examples::set_under_other(),
        examples::toggle(),
        examples::formula_over_empty(),
        examples::costly(),
        examples::priced(1, 50),
        examples::priced(65_535, 200),
        damage::base(),
    ]
}

fn try_file(trial: &mut Trial, file: &[u8]) -> Verdict {
    trial.case();
    entry_trial::file(&mut trial.random, file)
}

fn small(random: &mut Random) -> Vec<u8> {
    let with_twins = random.chance(30);
    let shape = Shape::small(random, with_twins);
    file(&generate::task(random, &shape))
}

fn worked_examples(trial: &mut Trial) -> Verdict {
    for task in all_examples() {
        let file = file(&task);
        for _ in 0..20 {
            try_file(trial, &file)?;
        }
        let compiled = other::compile(&file, 2000, 4);
        let length = usize::from(u16::from_le_bytes([compiled.result[0], compiled.result[1]]));
        for _ in 0..20 {
            try_file(trial, &compiled.out[..length])?;
        }
    }
    Ok(())
}

/// Every length of every output buffer, from empty to longer than needed.
fn all_lengths(trial: &mut Trial) -> Verdict {
    for task in all_examples() {
        let file = file(&task);
        let state = &task.tables.initial;
        for length in 0..other::layout(&task).len() + 20 {
            trial.case();
            same_read(&file, length, 0xff)?;
        }
        for length in 0..420 {
            trial.case();
            same_compile(&file, length, 4, 0xff)?;
        }
        for length in 0..24 {
            trial.case();
            same_compile(&file, 420, length, 0xff)?;
            same_compile(&file, 3, length, 0xff)?;
            same_run(&file, state, &[0, 0], length, 0xff)?;
            same_run(&file, state, &[0, 0, 0], length, 0xff)?;
            same_run(&file, &vec![0; length], &[0, 0], 16, 0xff)?;
            same_run(&file, state, &vec![0; length], 16, 0xff)?;
            same_plan(&file, 40, length, 0xff)?;
            same_plan(&file, length, 12, 0xff)?;
            same_plan(&file, 3, length, 0xff)?;
        }
    }
    Ok(())
}

fn every_beginning(trial: &mut Trial) -> Verdict {
    for task in all_examples() {
        let mut file = file(&task);
        for length in 0..file.len() {
            try_file(trial, &file[..length])?;
        }
        file.push(0);
        try_file(trial, &file)?;
        file.extend([0; 50_000]);
        try_file(trial, &file)?;
    }
    Ok(())
}

fn every_byte_changed(trial: &mut Trial) -> Verdict {
    for task in all_examples() {
        let whole = file(&task);
        for at in 0..whole.len() {
            let bits = (0..8).map(|bit| whole[at] ^ (1 << bit));
            let near = [whole[at].wrapping_add(1), whole[at].wrapping_sub(1), 0, 255];
            for byte in bits.chain(near) {
                let mut file = whole.clone();
                file[at] = byte;
                try_file(trial, &file)?;
            }
        }
    }
    Ok(())
}

/// Every file of at most two bytes, and every row of a smallest task.
fn shortest_files(trial: &mut Trial) -> Verdict {
    try_file(trial, &[])?;
    for first in 0..=255 {
        try_file(trial, &[first])?;
        try_file(trial, &[0x04, 1, 0, first])?;
        for second in 0..=255 {
            trial.case();
            same_read(&[first, second], 20, 0xff)?;
        }
    }
    Ok(())
}

fn random_files(trial: &mut Trial) -> Verdict {
    for _ in 0..15_000 {
        let file = small(&mut trial.random);
        try_file(trial, &file)?;
    }
    for _ in 0..500 {
        let with_twins = trial.random.chance(30);
        let shape = Shape::middle(&mut trial.random, with_twins);
        let task = generate::task(&mut trial.random, &shape);
        try_file(trial, &file(&task))?;
    }
    Ok(())
}

fn damaged_files(trial: &mut Trial) -> Verdict {
    for _ in 0..40_000 {
        let mut file = small(&mut trial.random);
        damage::file(&mut trial.random, &mut file);
        try_file(trial, &file)?;
    }
    Ok(())
}

/// Two faults: the first in order is given.
fn damaged_twice(trial: &mut Trial) -> Verdict {
    for _ in 0..20_000 {
        let mut file = small(&mut trial.random);
        damage::file(&mut trial.random, &mut file);
        damage::file(&mut trial.random, &mut file);
        try_file(trial, &file)?;
    }
    Ok(())
}

/// A valid head, then garbage.
fn random_bytes(trial: &mut Trial) -> Verdict {
    for _ in 0..20_000 {
        let random = &mut trial.random;
        let map = random.byte() & 0x3f | 0x04;
        let mut file = vec![map];
        for _ in 0..map.count_ones() {
            file.extend([random.below(5) as u8, 0]);
        }
        let length = random.below(60);
        file.extend((0..length).map(|_| random.byte() & random.byte()));
        try_file(trial, &file)?;
    }
    Ok(())
}

fn large_files(trial: &mut Trial) -> Verdict {
    for round in 0..30 {
        let shape = match round % 3 {
            0 => Shape::largest(&mut trial.random),
            _ => Shape::large(&mut trial.random),
        };
        let task = generate::task(&mut trial.random, &shape);
        let mut file = file(&task);
        try_file(trial, &file)?;
        damage::file(&mut trial.random, &mut file);
        try_file(trial, &file)?;
    }
    Ok(())
}

/// Tasks whose compiled task just keeps a limit or just passes it; deep rows.
fn limits_of_compiling(trial: &mut Trial) -> Verdict {
    for task in [
        examples::conjunctions(4093),
        examples::conjunctions(4094),
        examples::conjunctions(4095),
        examples::some_twins(256, 255),
        examples::some_twins(256, 256),
        examples::some_twins(257, 256),
        examples::some_twins(511, 1),
        examples::some_twins(512, 1),
        examples::many_rules(&[512, 512, 341]),
        examples::many_rules(&[512, 512, 342]),
        examples::doubling_formulas(600),
        examples::doubling_formulas(4000),
        examples::doubling_effects(4000),
        generate::plain(Head::from_words([512, 0, 4096, 4096, 256, 4095])),
    ] {
        try_file(trial, &file(&task))?;
    }
    Ok(())
}

/// 16 before 19 before 20 before a stop; 13 before 15 before 20.
fn order_of_refusals(trial: &mut Trial) -> Verdict {
    for task in all_examples() {
        let file = file(&task);
        let state = &task.tables.initial;
        let long = [state.as_slice(), &[0]].concat();
        let dirty: Vec<u8> = state.iter().map(|_| 2).collect();
        for state in [state, &long, &dirty] {
            for sequence in [&[][..], &[0], &[255, 255], &[0, 0, 9]] {
                for result_length in [0, 15, 16, 17] {
                    trial.case();
                    same_run(&file, state, sequence, result_length, 0xff)?;
                    same_run(&file[1..], state, sequence, result_length, 0xff)?;
                }
            }
        }
    }
    let twins = file(&examples::some_twins(512, 1));
    for (out_length, result_length) in [(0, 0), (0, 4), (50_000, 0), (50_000, 4)] {
        trial.case();
        same_compile(&twins, out_length, result_length, 0xff)?;
        same_compile(&file(&damage::base()), out_length, result_length, 0xff)?;
    }
    Ok(())
}

/// Files, sequences and rows around those up to which an entry has small
/// tables of its own.
fn where_small_tables_end(trial: &mut Trial) -> Verdict {
    for rows in (36..50).chain(250..262) {
        let bytes = file(&examples::conjunctions(rows));
        try_file(trial, &bytes)?;
        for cut in 1..4 {
            try_file(trial, &bytes[..bytes.len() - cut])?;
        }
    }
    let running = examples::running();
    let state = &running.tables.initial;
    for numbers in 253..260 {
        trial.case();
        let moves: Vec<u16> = (0..numbers).map(|k| k % 2).collect();
        let mut sequence = other::words(&moves);
        same_run(&file(&running), state, &sequence, 16, 0xff)?;
        sequence.push(0);
        same_run(&file(&running), state, &sequence, 16, 0xff)?;
    }
    Ok(())
}

fn long_sequences(trial: &mut Trial) -> Verdict {
    let costly = file(&examples::costly().at_percent(200));
    for bytes in [
        131_067, 131_068, 131_069, 131_070, 131_071, 131_072, 131_073, 262_144,
    ] {
        trial.case();
        let mut sequence = vec![0; bytes];
        same_run(&costly, &[], &sequence, 16, 0xff)?;
        same_run(&costly, &[], &sequence, 15, 0xff)?;
        sequence[0] = 1;
        same_run(&costly, &[], &sequence, 16, 0xff)?;
        sequence[0] = 0;
        sequence[131_066] = 1;
        same_run(&costly, &[], &sequence, 16, 0xff)?;
    }
    trial.case();
    let moves: Vec<u16> = (0..65_535).map(|k| k % 2).collect();
    let running = examples::running();
    let state = &running.tables.initial;
    same_run(&file(&running), state, &other::words(&moves), 16, 0xff)
}

/// From the initial states the source and its compiled task run alike, by
/// the library alone: the same number, the same result.
fn alike(trial: &mut Trial) -> Verdict {
    let mut compiling = 0;
    for _ in 0..5_000 {
        let shape = Shape::small(&mut trial.random, false);
        let task = generate::task(&mut trial.random, &shape);
        let source = file(&task);
        let compiled = library::compile(&source, other::MOST_FILE_BYTES, 4, 0xff)?;
        if compiled.number != 0 {
            continue;
        }
        trial.case();
        compiling += 1;
        let length = usize::from(u16::from_le_bytes([compiled.result[0], compiled.result[1]]));
        let compiled = &compiled.out[..length];
        let tables = library::read(compiled, 51_724, 0xff)?.tables;
        let variables = usize::from(u16::from_le_bytes([tables[0], tables[1]]));
        let start = &tables[other::HEAD_SIZE..][..variables];
        let sequence = generate::sequence(&mut trial.random, task.head.operator_count);
        let sequence = other::words(&sequence);
        let one = library::run(&source, &task.tables.initial, &sequence, 16, 0xff)?;
        let two = library::run(compiled, start, &sequence, 16, 0xff)?;
        let originals = &two.state[..one.state.len()];
        if (one.number, &one.result, one.state.as_slice()) != (two.number, &two.result, originals) {
            return Err(format!(
                "  file {source:02x?}\n  source {one:?}\n  compiled {two:?}"
            ));
        }
    }
    match compiling {
        0..=4000 => Err("  few tasks compiled".to_string()),
        _ => Ok(()),
    }
}

/// Tasks that mostly have a plan, with every length of out around its own.
fn plans_of_moves(trial: &mut Trial) -> Verdict {
    let (mut long, mut none) = (0, 0);
    for _ in 0..4_000 {
        let random = &mut trial.random;
        let (operators, costs) = (random.pick(&[1, 3, 8, 20]), random.pick(&[1, 3, 65_536]));
        let task = match random.chance(60) {
            true => {
                let variables = random.between(1, 5);
                moves::line(random, variables, operators.min(64 >> variables), costs)
            }
            false => {
                let variables = random.between(0, 11);
                moves::task(random, variables, operators, costs)
            }
        };
        let file = file(&task);
        let all = other::plan(&file, 2046, 12);
        long += u32::from(all.number == 0 && all.result[0] > 4);
        none += u32::from(all.number == 22);
        let needed = match all.number {
            0 => 2 * usize::from(u16::from_le_bytes([all.result[0], all.result[1]])),
            _ => 4,
        };
        for length in needed.saturating_sub(3)..needed + 4 {
            trial.case();
            same_plan(&file, length, 12, 0xff)?;
        }
        same_plan(&file, needed, 11, 0xff)?;
        same_plan(&file, needed, 13, 0xff)?;
    }
    let enough = long > 200 && none > 200;
    same(&format!("{long} long, {none} none"), enough, true)
}

/// A counter of 10 variables: 1,023 steps, 2,046 bytes.
fn longest_plans(trial: &mut Trial) -> Verdict {
    for operators in [1, 2, 256] {
        let task = long_plans::counter(10, operators, |_| 65_535);
        let file = file(&task.at_percent(200));
        for length in [0, 2044, 2045, 2046, 2047, 5000] {
            trial.case();
            same_plan(&file, length, 12, 0xff)?;
            same_plan(&file, length, 11, 0xff)?;
        }
        let left = library::plan(&file, 2046, 12, 0xff)?;
        same("steps", &left.result[..4], &[0xff, 0x03, 0, 0][..])?;
    }
    for reachable in [true, false] {
        trial.case();
        let lanes = file(&long_plans::lanes(3, 7, reachable));
        same_plan(&lanes, 2046, 12, 0xff)?;
        same_plan(&file(&long_plans::largest_rows(reachable)), 2046, 12, 0xff)?;
    }
    Ok(())
}

/// 21 before 20 before 22 before 23, and the file's own before all of them.
fn refused_plans(trial: &mut Trial) -> Verdict {
    let none = {
        let mut task = generate::plain(Head::from_words([1, 0, 1, 0, 0, 0]));
        task.set_formula(0, [0, 0, 0]);
        file(&task)
    };
    let large = file(&generate::plain(Head::from_words([11, 5, 2, 2, 1, 0])));
    let long = file(&long_plans::counter(3, 2, |_| 1));
    for (file, out_length, result_length, number) in [
        (&large, 0, 0, 21),
        (&large, 99, 11, 21),
        (&large, 99, 12, 21),
        (&none, 0, 11, 20),
        (&none, 0, 12, 22),
        (&none, 99, 12, 22),
        (&long, 0, 11, 20),
        (&long, 0, 12, 23),
        (&long, 13, 12, 23),
        (&long, 14, 12, 0),
        (&long, 15, 12, 0),
    ] {
        trial.case();
        same_plan(file, out_length, result_length, 0xff)?;
        let left = library::plan(file, out_length, result_length, 0xff)?;
        same("number", left.number, number)?;
        let damaged = &file[..file.len() - 1];
        same_plan(damaged, out_length, result_length, 0xff)?;
    }
    Ok(())
}

/// Where both have at most 10 variables, a task and its compiled task have
/// the same cheapest plan, by the library alone.
fn planned_alike(trial: &mut Trial) -> Verdict {
    let mut plans = 0;
    for _ in 0..5_000 {
        let shape = Shape::small(&mut trial.random, false);
        let task = generate::task(&mut trial.random, &shape);
        let source = file(&task);
        let compiled = library::compile(&source, other::MOST_FILE_BYTES, 4, 0xff)?;
        let length = usize::from(u16::from_le_bytes([compiled.result[0], compiled.result[1]]));
        let one = library::plan(&source, 2046, 12, 0xff)?;
        let two = library::plan(&compiled.out[..length], 2046, 12, 0xff)?;
        if compiled.number != 0 || two.number == 21 {
            continue;
        }
        trial.case();
        plans += u32::from(one.number == 0);
        if one != two {
            return Err(format!(
                "  file {source:02x?}\n  source {one:?}\n  compiled {two:?}"
            ));
        }
    }
    same(&format!("{plans} plans"), plans > 1_000, true)
}

fn corpus(trial: &mut Trial) -> Verdict {
    let files = stored::files().map_err(|error| format!("  {error}"))?;
    for (path, file) in files {
        let verdict = try_file(trial, &file);
        verdict.map_err(|dump| format!("  {}\n{dump}", path.display()))?;
    }
    Ok(())
}
