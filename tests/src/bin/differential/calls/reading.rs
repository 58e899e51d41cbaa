//! Reading and writing task files.

use saqwillo_tests::file::{Reading, Writing};
use saqwillo_tests::lent::{Lent, LentTables};
use saqwillo_tests::random::Random;
use saqwillo_tests::task::{Head, Lengths, Tables, Task};

use super::{call_on_tables, on_tables};

/// `test_write` answers the length, or this and the refusal.
const REFUSED: usize = 65_536;

#[link(name = "test_calls", kind = "static")]
extern "C" {
    fn test_read(
        file: *const u8,
        file_len: usize,
        head: *mut u16,
        head_len: usize,
        initial: *mut u8,
        initial_len: usize,
        twins: *mut u16,
        twins_len: usize,
        formulas: *mut u16,
        formulas_len: usize,
        effects: *mut u16,
        effects_len: usize,
        operators: *mut u16,
        operators_len: usize,
    ) -> u16;
}

on_tables! {
    fn test_write(out: *mut u8, out_len: usize) -> usize;
}

/// The library's reading of a file into dirty tables of these lengths.
pub fn read(random: &mut Random, file: &[u8], lent: &Lengths) -> Reading {
    let head = Lent::dirty(random, 6);
    let (number, head, tables) = read_into(random, file, lent, head);
    let head = head.try_into().expect("six words");
    Reading {
        number,
        head: Head::from_words(head),
        tables,
    }
}

/// The same with a lent head of any length.
pub fn read_into(
    random: &mut Random,
    file: &[u8],
    lent: &Lengths,
    mut head: Lent<u16>,
) -> (u16, Vec<u16>, Tables) {
    let mut tables = LentTables::dirty(random, lent);
    let [twins, formulas, effects, operators] = &mut tables.words;
    let words = [twins, formulas, effects, operators].map(|table| table.slice());
    let number = read_slices(file, head.slice(), tables.initial.slice(), words);
    (number, head.taken(), tables.taken())
}

/// The same into these tables, for the comparison of times.
pub fn read_quickly(file: &[u8], head: &mut [u16], tables: &mut Tables) -> u16 {
    let words = [
        &mut tables.twins[..],
        &mut tables.formulas,
        &mut tables.effects,
        &mut tables.operators,
    ];
    read_slices(file, head, &mut tables.initial, words)
}

fn read_slices(file: &[u8], head: &mut [u16], initial: &mut [u8], words: [&mut [u16]; 4]) -> u16 {
    let [twins, formulas, effects, operators] = words;
    // Each pointer and length come from one slice; no two overlap.
    unsafe {
        test_read(
            file.as_ptr(),
            file.len(),
            head.as_mut_ptr(),
            head.len(),
            initial.as_mut_ptr(),
            initial.len(),
            twins.as_mut_ptr(),
            twins.len(),
            formulas.as_mut_ptr(),
            formulas.len(),
            effects.as_mut_ptr(),
            effects.len(),
            operators.as_mut_ptr(),
            operators.len(),
        )
    }
}

/// The library's writing of a task into a dirty output of this length.
pub fn write(random: &mut Random, head: &Head, tables: &Tables, length: usize) -> Writing {
    let mut output = Lent::dirty(random, length);
    let answer = write_slice(head, tables, output.slice());
    let (number, length) = match answer.checked_sub(REFUSED) {
        Some(number) => (number as u16, 0),
        None => (0, answer),
    };
    Writing {
        number,
        length,
        output: output.taken(),
    }
}

/// The same into this output, for the comparison of times: the length.
pub fn write_quickly(task: &Task, out: &mut [u8]) -> usize {
    write_slice(&task.head, &task.tables, out)
}

fn write_slice(head: &Head, tables: &Tables, out: &mut [u8]) -> usize {
    call_on_tables!(test_write, head, tables, out.as_mut_ptr(), out.len())
}
