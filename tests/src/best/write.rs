//! Writing a file straight into a lent output.

use super::Rows;
use crate::task::*;

/// The file's length, or the refusal; then the output is all 0.
pub fn write(rows: &Rows, out: &mut [u8]) -> Result<usize, Refusal> {
    out.fill(0);
    let rows = rows.checked()?;
    let answer = fill(&rows, out);
    if answer.is_err() {
        out.fill(0);
    }
    answer
}

struct Output<'a> {
    out: &'a mut [u8],
    at: usize,
}

impl Output<'_> {
    #[inline]
    fn byte(&mut self, byte: u8) -> Result<(), Refusal> {
        *self.out.get_mut(self.at).ok_or(20u16)? = byte;
        self.at += 1;
        Ok(())
    }

    #[inline]
    fn word(&mut self, word: u16) -> Result<(), Refusal> {
        let room = self.out.get_mut(self.at..self.at + 2).ok_or(20u16)?;
        room.copy_from_slice(&word.to_le_bytes());
        self.at += 2;
        Ok(())
    }

    #[inline]
    fn fields(&mut self, upper: u8, fields: &[u16], absent: &[u16]) -> Result<(), Refusal> {
        let mut map = upper;
        for (bit, (field, absent)) in fields.iter().zip(absent).enumerate() {
            map |= u8::from(field != absent) << bit;
        }
        self.byte(map)?;
        for (&field, &absent) in fields.iter().zip(absent) {
            if field != absent {
                self.word(field)?;
            }
        }
        Ok(())
    }
}

fn fill(rows: &Rows, out: &mut [u8]) -> Result<usize, Refusal> {
    let mut output = Output { out, at: 0 };
    output.fields(0, &rows.head.words(), &[0; 6])?;
    for group in rows.initial.chunks(8) {
        let mut byte = 0;
        for (bit, value) in group.iter().enumerate() {
            byte |= value << bit;
        }
        output.byte(byte)?;
    }
    for &original in rows.twins {
        output.word(original)?;
    }
    for table in [rows.formulas, rows.effects] {
        for row in table.chunks_exact(ROW) {
            output.fields((row[0] as u8) << 4, &row[1..], &[0; 2])?;
        }
    }
    for row in rows.operators.chunks_exact(OPERATOR_ROW) {
        output.fields(0, row, &ABSENT_OPERATOR)?;
    }
    Ok(output.at)
}
