//! The compiling program's output (01, "Sheets to try", the whole example).

use std::fmt::Write;

use crate::compile::compile;
use crate::file::{read_task, LARGEST};
use crate::task::*;

/// The lines of a task: t, i, w, f, e, o.
pub fn task_lines(task: &Task) -> String {
    let mut text = line("t", &task.head.words());
    let variables = usize::from(task.head.variables);
    let initial = &task.tables.initial[..variables];
    let values: String = initial.iter().map(u8::to_string).collect();
    text += format!("i {values}").trim_end();
    text += "\n";
    let first_twin = task.originals() as u16;
    let twins = &task.tables.twins[..usize::from(task.head.twin_count)];
    for (twin, &original) in (first_twin..).zip(twins) {
        text += &line("w", &[twin, original]);
    }
    let head = &task.head;
    text += &rows("f", head.formula_count, |i| row(&task.tables.formulas, i));
    text += &rows("e", head.effect_count, |i| row(&task.tables.effects, i));
    text += &rows("o", head.operator_count, |i| {
        operator_row(&task.tables.operators, i)
    });
    text
}

/// A line for each row: its number and its words.
fn rows<'a>(letter: &str, count: u16, words: impl Fn(usize) -> &'a [u16]) -> String {
    (0..count)
        .map(|i| line(letter, &[&[i], words(usize::from(i))].concat()))
        .collect()
}

fn line(letter: &str, words: &[u16]) -> String {
    let mut text = letter.to_string();
    for word in words {
        write!(text, " {word}").expect("a string takes all");
    }
    text.push('\n');
    text
}

/// What the compiling program prints for this input.
pub fn program(input: &[u8]) -> String {
    compiled_input(input).map_or_else(
        |number| line("r", &[number]),
        |finished| task_lines(&finished),
    )
}

fn compiled_input(input: &[u8]) -> Result<Task, Refusal> {
    let task = read_task(input, &LARGEST)?;
    let scratch = 2 * (MOST_FORMULAS + MOST_EFFECTS);
    let compiled = compile(&task, &LARGEST, scratch);
    match compiled.number {
        0 => Ok(Task {
            head: compiled.head,
            tables: compiled.tables,
        }),
        number => Err(number),
    }
}
