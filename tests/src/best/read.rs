//! Reading a file straight into lent tables.

use super::rules::{effect_kept, formula_kept, operator_kept, Named};
use super::Room;
use crate::check;
use crate::task::*;

/// The head, or the refusal; then all lent tables are 0.
pub fn read(file: &[u8], mut room: Room) -> Result<Head, Refusal> {
    room.clear();
    let answer = fill(file, &mut room);
    if answer.is_err() {
        room.clear();
    }
    answer
}

struct Bytes<'a> {
    rest: &'a [u8],
}

impl Bytes<'_> {
    #[inline]
    fn byte(&mut self) -> Result<u8, Refusal> {
        let (&byte, rest) = self.rest.split_first().ok_or(1u16)?;
        self.rest = rest;
        Ok(byte)
    }

    #[inline]
    fn word(&mut self) -> Result<u16, Refusal> {
        let (word, rest) = self.rest.split_first_chunk().ok_or(1u16)?;
        self.rest = rest;
        Ok(u16::from_le_bytes(*word))
    }

    #[inline]
    fn map(&mut self, unused: u8) -> Result<u8, Refusal> {
        match self.byte()? {
            map if map & unused != 0 => Err(2),
            map => Ok(map),
        }
    }

    #[inline]
    fn field(&mut self, map: u8, bit: usize, absent: u16) -> Result<u16, Refusal> {
        if map >> bit & 1 == 0 {
            return Ok(absent);
        }
        match self.word()? {
            word if word == absent => Err(3),
            word => Ok(word),
        }
    }
}

fn fill(file: &[u8], room: &mut Room) -> Result<Head, Refusal> {
    let mut bytes = Bytes { rest: file };
    let map = bytes.map(0b1100_0000)?;
    let mut words = [0; 6];
    for (bit, word) in words.iter_mut().enumerate() {
        *word = bytes.field(map, bit, 0)?;
    }
    let head = Head::from_words(words);
    check::check_head(&head)?;
    check::check_lengths(&head, &room.lengths())?;
    let needs = head.needs();
    read_initial(&mut bytes, &mut room.initial[..needs.initial])?;
    read_twins(&mut bytes, &head, &mut room.twins[..needs.twins])?;
    let [v, _, f, e, _, _] = words.map(usize::from);
    let formulas = &mut room.formulas[..needs.formulas];
    read_rows(&mut bytes, formulas, 10, |i, kind, a, b| {
        formula_kept(v, i, kind, a, b)
    })?;
    let effects = &mut room.effects[..needs.effects];
    read_rows(&mut bytes, effects, 11, |i, kind, a, b| {
        effect_kept(v, f, i, kind, a, b)
    })?;
    read_operators(&mut bytes, &mut room.operators[..needs.operators], f, e)?;
    if !bytes.rest.is_empty() {
        return Err(4);
    }
    Ok(head)
}

fn read_initial(bytes: &mut Bytes, initial: &mut [u8]) -> Result<(), Refusal> {
    for group in initial.chunks_mut(8) {
        let byte = bytes.byte()?;
        for (bit, value) in group.iter_mut().enumerate() {
            *value = byte >> bit & 1;
        }
        if u32::from(byte) >> group.len() != 0 {
            return Err(2);
        }
    }
    Ok(())
}

fn read_twins(bytes: &mut Bytes, head: &Head, twins: &mut [u16]) -> Result<(), Refusal> {
    let end = usize::from(head.variables) - usize::from(head.twin_count);
    let mut named = Named::default();
    for original in twins {
        *original = bytes.word()?;
        if !named.first(*original, end) {
            return Err(9);
        }
    }
    Ok(())
}

#[inline]
fn read_rows(
    bytes: &mut Bytes,
    table: &mut [u16],
    number: Refusal,
    kept: impl Fn(usize, u16, u16, u16) -> bool,
) -> Result<(), Refusal> {
    for (i, row) in table.chunks_exact_mut(ROW).enumerate() {
        let map = bytes.map(0b0000_1100)?;
        let a = bytes.field(map, 0, 0)?;
        let b = bytes.field(map, 1, 0)?;
        let kind = u16::from(map >> 4);
        if !kept(i, kind, a, b) {
            return Err(number);
        }
        row[0] = kind;
        row[1] = a;
        row[2] = b;
    }
    Ok(())
}

fn read_operators(
    bytes: &mut Bytes,
    table: &mut [u16],
    formulas: usize,
    effects: usize,
) -> Result<(), Refusal> {
    for row in table.chunks_exact_mut(OPERATOR_ROW) {
        let map = bytes.map(0b1111_0000)?;
        for (bit, (word, &absent)) in row.iter_mut().zip(&ABSENT_OPERATOR).enumerate() {
            *word = bytes.field(map, bit, absent)?;
        }
        operator_kept(formulas, effects, row)?;
    }
    Ok(())
}
