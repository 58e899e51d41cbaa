//! One file through the four C entries of the library and of the other
//! implementation; the differential tests and the fuzzer share it.

use crate::entries::{self, COMPILE_RESULT_SIZE, HEAD_SIZE, PLAN_RESULT_SIZE, RUN_RESULT_SIZE};
use crate::entry_calls as library;
use crate::file::{read_task, LARGEST};
use crate::generate;
use crate::harness::Verdict;
use crate::random::Random;

const FILLS: [u8; 4] = [0, 1, 0xa5, 0xff];

pub fn same_read(file: &[u8], tables_length: usize, fill: u8) -> Verdict {
    let expected = entries::read(file, tables_length);
    let found = library::read(file, tables_length, fill);
    let call = || format!("pnf_read, tables_len {tables_length}, fill {fill}");
    same(file, call, found, expected)
}

pub fn same_compile(file: &[u8], out_length: usize, result_length: usize, fill: u8) -> Verdict {
    let expected = entries::compile(file, out_length, result_length);
    let found = library::compile(file, out_length, result_length, fill);
    let call =
        || format!("pnf_compile, out_len {out_length}, result_len {result_length}, fill {fill}");
    same(file, call, found, expected)
}

pub fn same_run(
    file: &[u8],
    state: &[u8],
    sequence: &[u8],
    result_length: usize,
    fill: u8,
) -> Verdict {
    let expected = entries::run(file, state, sequence, result_length);
    let found = library::run(file, state, sequence, result_length, fill);
    let call = || {
        let (states, numbers) = (hex(state), hex(sequence));
        format!(
            "pnf_run, result_len {result_length}, fill {fill}\n  state {states}\n  sequence {numbers}"
        )
    };
    same(file, call, found, expected)
}

pub fn same_plan(file: &[u8], out_length: usize, result_length: usize, fill: u8) -> Verdict {
    let expected = entries::plan(file, out_length, result_length);
    let found = library::plan(file, out_length, result_length, fill);
    let call =
        || format!("pnf_plan, out_len {out_length}, result_len {result_length}, fill {fill}");
    same(file, call, found, expected)
}

fn same<T: PartialEq + std::fmt::Debug>(
    file: &[u8],
    call: impl Fn() -> String,
    found: Result<T, String>,
    expected: T,
) -> Verdict {
    let what = match found {
        Ok(found) if found == expected => return Ok(()),
        Ok(found) => {
            let (found, expected) = (format!("{found:?}"), format!("{expected:?}"));
            format!("  library {found:.2000}\n  other implementation {expected:.2000}")
        }
        Err(fault) => fault,
    };
    Err(format!("  file {}\n  {}\n{what}", hex(file), call()))
}

/// Length and hexadecimal bytes; long ones are cut.
fn hex(bytes: &[u8]) -> String {
    const SHOWN: usize = 600;
    let shown = bytes.iter().take(SHOWN);
    let text: String = shown.map(|byte| format!("{byte:02x}")).collect();
    let more = if bytes.len() > SHOWN { " ..." } else { "" };
    format!("[{}] {text}{more}", bytes.len())
}

/// The four calls on one file, with lengths around the layouts' sizes and
/// some states and sequences.
pub fn file(random: &mut Random, file: &[u8]) -> Verdict {
    reading(random, file)?;
    compiling(random, file)?;
    for _ in 0..3 {
        running(random, file)?;
    }
    planning(random, file)
}

fn reading(random: &mut Random, file: &[u8]) -> Verdict {
    let needed = match read_task(file, &LARGEST) {
        Ok(task) => entries::layout(&task).len(),
        Err(_) => random.below(HEAD_SIZE + 80),
    };
    for length in around(random, needed) {
        same_read(file, length, random.pick(&FILLS))?;
    }
    Ok(())
}

fn compiling(random: &mut Random, file: &[u8]) -> Verdict {
    let all = entries::compile(file, entries::MOST_FILE_BYTES, COMPILE_RESULT_SIZE);
    let needed = match all.number {
        0 => usize::from(u16::from_le_bytes([all.result[0], all.result[1]])),
        _ => random.below(100),
    };
    same_compile(file, needed, COMPILE_RESULT_SIZE, random.pick(&FILLS))?;
    let out_length = near(random, needed);
    let result_length = near(random, COMPILE_RESULT_SIZE);
    same_compile(file, out_length, result_length, random.pick(&FILLS))
}

/// Mostly the initial state or a random one, now and then a wrong one.
fn running(random: &mut Random, file: &[u8]) -> Verdict {
    let (mut state, operators) = match read_task(file, &LARGEST) {
        Ok(task) => (task.tables.initial.clone(), task.head.operator_count),
        Err(_) => (vec![0; random.below(4)], 2),
    };
    match random.below(8) {
        0 => state.push(random.bit()),
        1 => drop(state.pop()),
        2 if !state.is_empty() => {
            let at = random.below(state.len());
            state[at] = random.pick(&[2, 3, 128, 255]);
        }
        3 | 4 => state = generate::state(random, state.len()),
        _ => {}
    }
    let mut sequence = entries::words(&generate::sequence(random, operators));
    if random.chance(10) {
        sequence.push(random.byte());
    }
    let result_length = match random.below(4) {
        0 => near(random, RUN_RESULT_SIZE),
        _ => RUN_RESULT_SIZE,
    };
    same_run(file, &state, &sequence, result_length, random.pick(&FILLS))
}

/// An out just long enough, one byte too short, and any; half a number more
/// among them.
fn planning(random: &mut Random, file: &[u8]) -> Verdict {
    let all = entries::plan(file, 2 * 1023, PLAN_RESULT_SIZE);
    let steps = usize::from(u16::from_le_bytes([all.result[0], all.result[1]]));
    let needed = match all.number {
        0 => 2 * steps,
        _ => random.below(20),
    };
    for out_length in [needed, needed.saturating_sub(1), near(random, needed)] {
        same_plan(file, out_length, PLAN_RESULT_SIZE, random.pick(&FILLS))?;
    }
    let (out_length, result_length) = (near(random, needed), near(random, PLAN_RESULT_SIZE));
    same_plan(file, out_length, result_length, random.pick(&FILLS))
}

/// Lengths near the needed one, and far from it.
fn around(random: &mut Random, needed: usize) -> [usize; 5] {
    [
        needed,
        needed.saturating_sub(1),
        needed + 1,
        needed + random.below(300),
        random.below(needed + 1),
    ]
}

/// One of these lengths.
fn near(random: &mut Random, needed: usize) -> usize {
    let lengths = around(random, needed);
    random.pick(&lengths)
}
