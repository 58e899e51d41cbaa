//! Compiling to positive normal form.

use saqwillo_tests::compile::Compiled;
use saqwillo_tests::lent::{Lent, LentTables};
use saqwillo_tests::random::Random;
use saqwillo_tests::task::{Head, Lengths, Tables, Task};

use super::{call_on_tables, on_tables};

on_tables! {
    fn test_compile(
        out_initial: *mut u8,
        out_initial_len: usize,
        out_twins: *mut u16,
        out_twins_len: usize,
        out_formulas: *mut u16,
        out_formulas_len: usize,
        out_effects: *mut u16,
        out_effects_len: usize,
        out_operators: *mut u16,
        out_operators_len: usize,
        scratch: *mut u16,
        scratch_len: usize,
        head: *mut u16,
        head_len: usize
    ) -> u16;
}

/// The library's compiling into dirty tables, with a dirty scratch.
pub fn compile(random: &mut Random, task: &Task, lent: &Lengths, scratch: usize) -> Compiled {
    let head = Lent::dirty(random, 6);
    let (compiled, head) = compile_into(random, task, lent, scratch, head);
    let head = head.try_into().expect("six words");
    Compiled {
        head: Head::from_words(head),
        ..compiled
    }
}

/// The same with a lent head of any length, which is given back.
pub fn compile_into(
    random: &mut Random,
    task: &Task,
    lent: &Lengths,
    scratch: usize,
    mut head: Lent<u16>,
) -> (Compiled, Vec<u16>) {
    let mut tables = LentTables::dirty(random, lent);
    let mut scratch = Lent::dirty(random, scratch);
    let [twins, formulas, effects, operators] = &mut tables.words;
    let words = [twins, formulas, effects, operators].map(|table| table.slice());
    let number = compile_slices(
        task,
        tables.initial.slice(),
        words,
        scratch.slice(),
        head.slice(),
    );
    let compiled = Compiled {
        number,
        head: Head::default(),
        tables: tables.taken(),
        scratch: scratch.taken(),
    };
    (compiled, head.taken())
}

/// The same into these buffers, for the comparison of times.
pub fn compile_quickly(
    task: &Task,
    tables: &mut Tables,
    scratch: &mut [u16],
    head: &mut [u16],
) -> u16 {
    let words = [
        &mut tables.twins[..],
        &mut tables.formulas,
        &mut tables.effects,
        &mut tables.operators,
    ];
    compile_slices(task, &mut tables.initial, words, scratch, head)
}

fn compile_slices(
    task: &Task,
    initial: &mut [u8],
    words: [&mut [u16]; 4],
    scratch: &mut [u16],
    head: &mut [u16],
) -> u16 {
    let [twins, formulas, effects, operators] = words;
    call_on_tables!(
        test_compile,
        &task.head,
        &task.tables,
        initial.as_mut_ptr(),
        initial.len(),
        twins.as_mut_ptr(),
        twins.len(),
        formulas.as_mut_ptr(),
        formulas.len(),
        effects.as_mut_ptr(),
        effects.len(),
        operators.as_mut_ptr(),
        operators.len(),
        scratch.as_mut_ptr(),
        scratch.len(),
        head.as_mut_ptr(),
        head.len()
    )
}
