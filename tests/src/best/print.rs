//! The compiling program's lines, into one buffer.

use super::compile::{compile, Form};
use super::{read, Room, Rows};
use crate::file::LARGEST;
use crate::task::*;

/// What the compiling program prints for this input.
pub fn program(input: &[u8]) -> Vec<u8> {
    let mut source = Tables::zeros(&LARGEST);
    let mut finished = Tables::zeros(&LARGEST);
    let mut scratch = vec![0; 2 * (MOST_FORMULAS + MOST_EFFECTS)];
    let head = read::read(input, Room::of(&mut source)).and_then(|head| {
        let rows = Rows {
            head,
            initial: &source.initial,
            twins: &source.twins,
            formulas: &source.formulas,
            effects: &source.effects,
            operators: &source.operators,
        };
        compile(Form::Kept, &rows, Room::of(&mut finished), &mut scratch)
    });
    let mut text = Vec::new();
    match head {
        Ok(head) => task_lines(&mut text, &head, &finished),
        Err(number) => line(&mut text, b'r', &[number]),
    }
    text
}

fn task_lines(text: &mut Vec<u8>, head: &Head, tables: &Tables) {
    let [v, w, f, e, o, _] = head.words().map(usize::from);
    line(text, b't', &head.words());
    text.push(b'i');
    if v > 0 {
        text.push(b' ');
    }
    text.extend(tables.initial[..v].iter().map(|value| b'0' + value));
    text.push(b'\n');
    for (k, &original) in tables.twins[..w].iter().enumerate() {
        line(text, b'w', &[(v - w + k) as u16, original]);
    }
    for (letter, table, width, count) in [
        (b'f', &tables.formulas, ROW, f),
        (b'e', &tables.effects, ROW, e),
        (b'o', &tables.operators, OPERATOR_ROW, o),
    ] {
        for (i, row) in table.chunks_exact(width).take(count).enumerate() {
            text.extend([letter, b' ']);
            number(text, i as u16);
            words(text, row);
        }
    }
}

fn line(text: &mut Vec<u8>, letter: u8, list: &[u16]) {
    text.push(letter);
    words(text, list);
}

/// These words, and the line's end.
fn words(text: &mut Vec<u8>, list: &[u16]) {
    for &word in list {
        text.push(b' ');
        number(text, word);
    }
    text.push(b'\n');
}

fn number(text: &mut Vec<u8>, word: u16) {
    let mut digits = [0; 5];
    let (mut first, mut rest) = (4, word);
    while rest >= 10 {
        digits[first] = b'0' + (rest % 10) as u8;
        rest /= 10;
        first -= 1;
    }
    digits[first] = b'0' + rest as u8;
    text.extend_from_slice(&digits[first..]);
}
