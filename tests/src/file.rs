//! Reading and writing task files (01, "The task file").

use crate::check::*;
use crate::task::*;

/// Lengths that hold every task.
pub const LARGEST: Lengths = Lengths {
    initial: MOST_VARIABLES,
    twins: MOST_VARIABLES / 2,
    formulas: MOST_FORMULAS * ROW,
    effects: MOST_EFFECTS * ROW,
    operators: MOST_OPERATORS * OPERATOR_ROW,
};

/// The length of the longest file; rows 0 and 1 cannot be full.
pub const LONGEST_FILE: usize = 43_845;

/// What reading leaves: 0 or the refusal, and all lent tables.
#[derive(Clone, Debug, PartialEq, Eq)]
pub struct Reading {
    pub number: Refusal,
    pub head: Head,
    pub tables: Tables,
}

/// Reads a file into lent tables of the given lengths.
pub fn read(file: &[u8], lent: &Lengths) -> Reading {
    match read_task(file, lent) {
        Ok(task) => Reading {
            number: 0,
            head: task.head,
            tables: task.tables.resized(lent),
        },
        Err(number) => Reading {
            number,
            head: Head::default(),
            tables: Tables::zeros(lent),
        },
    }
}

/// The task of a file, its tables just as long as needed.
pub fn read_task(file: &[u8], lent: &Lengths) -> Result<Task, Refusal> {
    let mut bytes = Bytes { rest: file };
    let head = read_head(&mut bytes)?;
    check_head(&head)?;
    check_lengths(&head, lent)?;
    let tables = Tables {
        initial: read_initial(&mut bytes, usize::from(head.variables))?,
        twins: read_twins(&mut bytes, &head)?,
        formulas: read_rows(&mut bytes, head.formula_count, |i, row| {
            check_formula(&head, i, row)
        })?,
        effects: read_rows(&mut bytes, head.effect_count, |i, row| {
            check_effect(&head, i, row)
        })?,
        operators: read_operators(&mut bytes, &head)?,
    };
    if !bytes.rest.is_empty() {
        return Err(4);
    }
    Ok(Task { head, tables })
}

struct Bytes<'a> {
    rest: &'a [u8],
}

impl Bytes<'_> {
    /// 1 at the end of the file.
    fn byte(&mut self) -> Result<u8, Refusal> {
        let (&byte, rest) = self.rest.split_first().ok_or(1u16)?;
        self.rest = rest;
        Ok(byte)
    }

    fn word(&mut self) -> Result<u16, Refusal> {
        let low = self.byte()?;
        let high = self.byte()?;
        Ok(u16::from_le_bytes([low, high]))
    }

    /// A map byte: 1, then 2 for a bit of `unused`.
    fn map(&mut self, unused: u8) -> Result<u8, Refusal> {
        let map = self.byte()?;
        if map & unused != 0 {
            return Err(2);
        }
        Ok(map)
    }

    /// The field of one map bit, `absent` if it does not stand: present 1,
    /// then 3.
    fn field(&mut self, map: u8, bit: usize, absent: u16) -> Result<u16, Refusal> {
        if map & (1 << bit) == 0 {
            return Ok(absent);
        }
        match self.word()? {
            word if word == absent => Err(3),
            word => Ok(word),
        }
    }
}

fn read_head(bytes: &mut Bytes) -> Result<Head, Refusal> {
    let map = bytes.map(0b1100_0000)?;
    let mut words = [0; 6];
    for (bit, word) in words.iter_mut().enumerate() {
        *word = bytes.field(map, bit, 0)?;
    }
    Ok(Head::from_words(words))
}

/// Variable v in bit v mod 8 of byte v / 8; spare bits 0.
fn read_initial(bytes: &mut Bytes, variables: usize) -> Result<Vec<u8>, Refusal> {
    let mut initial = Vec::new();
    while initial.len() < variables {
        let byte = bytes.byte()?;
        for bit in 0..8 {
            let value = byte >> bit & 1;
            if initial.len() < variables {
                initial.push(value);
            } else if value == 1 {
                return Err(2);
            }
        }
    }
    Ok(initial)
}

fn read_twins(bytes: &mut Bytes, head: &Head) -> Result<Vec<u16>, Refusal> {
    let mut twins = Vec::new();
    for _ in 0..head.twin_count {
        let original = bytes.word()?;
        check_twin(head, &twins, original)?;
        twins.push(original);
    }
    Ok(twins)
}

/// Formula or effect rows: the kind stands in bits 4 to 7 of the map byte.
fn read_rows(
    bytes: &mut Bytes,
    count: u16,
    check_row: impl Fn(usize, &[u16]) -> Result<(), Refusal>,
) -> Result<Vec<u16>, Refusal> {
    let mut table = Vec::new();
    for i in 0..usize::from(count) {
        let map = bytes.map(0b0000_1100)?;
        let a = bytes.field(map, 0, 0)?;
        let b = bytes.field(map, 1, 0)?;
        let row = [u16::from(map >> 4), a, b];
        check_row(i, &row)?;
        table.extend(row);
    }
    Ok(table)
}

fn read_operators(bytes: &mut Bytes, head: &Head) -> Result<Vec<u16>, Refusal> {
    let mut table = Vec::new();
    for _ in 0..head.operator_count {
        let map = bytes.map(0b1111_0000)?;
        let mut row = ABSENT_OPERATOR;
        for (bit, word) in row.iter_mut().enumerate() {
            *word = bytes.field(map, bit, *word)?;
        }
        check_operator(head, &row)?;
        table.extend(row);
    }
    Ok(table)
}

/// What writing leaves: 0 or the refusal, the file's length, the output.
#[derive(Clone, Debug, PartialEq, Eq)]
pub struct Writing {
    pub number: Refusal,
    pub length: usize,
    pub output: Vec<u8>,
}

/// Writes a task's file into an output of the given length.
pub fn write(head: &Head, tables: &Tables, output_length: usize) -> Writing {
    let refused = |number| Writing {
        number,
        length: 0,
        output: vec![0; output_length],
    };
    if let Err(number) = check(head, tables) {
        return refused(number);
    }
    let mut output = file_of(head, tables);
    let length = output.len();
    if length > output_length {
        return refused(20);
    }
    output.resize(output_length, 0);
    Writing {
        number: 0,
        length,
        output,
    }
}

/// The file of a task that passes the check.
pub fn file_of(head: &Head, tables: &Tables) -> Vec<u8> {
    let mut file = Vec::new();
    write_fields(&mut file, 0, &head.words(), &[0; 6]);
    let initial = &tables.initial[..usize::from(head.variables)];
    for group in initial.chunks(8) {
        let bits = group.iter().enumerate();
        file.push(bits.map(|(bit, value)| value << bit).sum());
    }
    for original in &tables.twins[..usize::from(head.twin_count)] {
        file.extend(original.to_le_bytes());
    }
    for (table, count) in [
        (&tables.formulas, head.formula_count),
        (&tables.effects, head.effect_count),
    ] {
        for row in table.chunks(ROW).take(usize::from(count)) {
            write_fields(&mut file, (row[0] as u8) << 4, &row[1..], &[0; 2]);
        }
    }
    let operators = tables.operators.chunks(OPERATOR_ROW);
    for row in operators.take(usize::from(head.operator_count)) {
        write_fields(&mut file, 0, row, &ABSENT_OPERATOR);
    }
    file
}

/// A map byte with the given upper bits, then the fields that are not what
/// absence means.
fn write_fields(file: &mut Vec<u8>, upper: u8, fields: &[u16], absent: &[u16]) {
    let mut map = upper;
    let mut present = Vec::new();
    for (bit, (field, absent)) in fields.iter().zip(absent).enumerate() {
        if field != absent {
            map |= 1 << bit;
            present.extend(field.to_le_bytes());
        }
    }
    file.push(map);
    file.extend(present);
}
