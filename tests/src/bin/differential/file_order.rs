//! Group `reading`: of two faults in a file the first in order is given.

use saqwillo_tests::damage;
use saqwillo_tests::file::{file_of, LARGEST};
use saqwillo_tests::harness::{same, Test, Trial, Verdict};

use crate::reading::agree;

pub fn tests() -> Vec<Test> {
    let test = |name, body| Test {
        group: "reading",
        name,
        body,
    };
    vec![
        test("faults in two places", two_places),
        test("faults in one row", one_row),
        test("faults in the head", in_the_head),
        test("5 and the head's faults", short_tables),
    ]
}

/// A fault of one part of a file: what stands there instead, and whether the
/// file ends there.
#[derive(Clone, Debug)]
struct Fault {
    number: u16,
    part: usize,
    bytes: Vec<u8>,
    ends: bool,
}

/// The first part that is an operator row.
const OPERATORS: usize = 16;

/// The file of `damage::base` in parts: head, initial state, twins, rows.
fn parts() -> Vec<Vec<u8>> {
    let task = damage::base();
    let file = file_of(&task.head, &task.tables);
    let mut lengths = vec![13, 1, 2, 2, 2];
    let mut at = 20;
    while at < file.len() {
        let length = 1 + 2 * (file[at] & 0x0f).count_ones() as usize;
        lengths.push(length);
        at += length;
    }
    let mut rest = &file[..];
    let part = |length: usize| {
        let (part, behind) = rest.split_at(length);
        rest = behind;
        part.to_vec()
    };
    lengths.into_iter().map(part).collect()
}

/// The unused bits of a part's first byte, and what else may stand there,
/// with its number.
fn unused_bits_and_wrong_parts(part: usize, bytes: &[u8]) -> (u8, Vec<(u16, Vec<u8>)>) {
    let with = |at: usize, low: u8, high: u8| {
        let mut changed = bytes.to_vec();
        changed[at..][..2].copy_from_slice(&[low, high]);
        changed
    };
    match part {
        0 => (
            0xc0,
            vec![(6, with(1, 1, 2)), (6, with(3, 4, 0)), (7, with(11, 6, 0))],
        ),
        1 => (0x80, vec![]),
        2..=4 => (0x00, vec![(9, vec![4, 0])]),
        5..=10 => (0x0c, vec![(10, vec![0x80]), (10, vec![0x21, 7, 0])]),
        11..=15 => (0x0c, vec![(11, vec![0x50]), (11, vec![0x11, 7, 0])]),
        OPERATORS.. => (
            0xf0,
            vec![
                (12, vec![0x01, 6, 0]),
                (12, vec![0x02, 5, 0]),
                (12, vec![0x09, 6, 0, 201, 0]),
                (24, vec![0x08, 201, 0]),
                (24, vec![0x0c, 1, 0, 0, 1]),
            ],
        ),
    }
}

/// Every fault of one part alone.
fn faults(part: usize, bytes: &[u8]) -> Vec<Fault> {
    let fault = |number, bytes: &[u8], ends| Fault {
        number,
        part,
        bytes: bytes.to_vec(),
        ends,
    };
    let mut all: Vec<Fault> = (0..bytes.len())
        .map(|length| fault(1, &bytes[..length], true))
        .collect();
    let (unused, wrong) = unused_bits_and_wrong_parts(part, bytes);
    for bit in (0..8).map(|bit| 1 << bit).filter(|bit| unused & bit != 0) {
        let mut changed = bytes.to_vec();
        changed[0] |= bit;
        all.push(fault(2, &changed, false));
    }
    let fields = match part {
        1..=4 => 0,
        _ => bytes.len() / 2,
    };
    // absent means 0, and 100 of a percent, which is the last where it stands
    let with_percent = part >= OPERATORS && bytes[0] & 0x08 != 0;
    for field in 0..fields {
        let percent = with_percent && field + 1 == fields;
        let absent = if percent { [100, 0] } else { [0, 0] };
        let mut changed = bytes.to_vec();
        changed[1 + 2 * field..][..2].copy_from_slice(&absent);
        all.push(fault(3, &changed, false));
    }
    for (number, bytes) in wrong {
        all.push(fault(number, &bytes, false));
    }
    all
}

fn file_with(parts: &[Vec<u8>], faults: &[&Fault]) -> Vec<u8> {
    let mut file = Vec::new();
    for (part, bytes) in parts.iter().enumerate() {
        match faults.iter().find(|fault| fault.part == part) {
            Some(fault) => file.extend(&fault.bytes),
            None => file.extend(bytes),
        }
        if faults.iter().any(|fault| fault.part == part && fault.ends) {
            return file;
        }
    }
    file
}

fn two_places(trial: &mut Trial) -> Verdict {
    let parts = parts();
    let mut all: Vec<Fault> = Vec::new();
    for (part, bytes) in parts.iter().enumerate() {
        all.extend(faults(part, bytes));
    }
    let expect = |trial: &mut Trial, faults: &[&Fault], number| {
        let file = file_with(&parts, faults);
        let found = agree(trial, &file, &LARGEST)?.number;
        same(&format!("{faults:?}"), found, number)
    };
    for first in &all {
        expect(trial, &[first], first.number)?;
        for second in all.iter().filter(|second| second.part > first.part) {
            expect(trial, &[first, second], first.number)?;
        }
    }
    Ok(())
}

/// Rows with two faults behind a head of two formulas, an effect and an
/// operator.
fn one_row(trial: &mut Trial) -> Verdict {
    let head = [0x1c, 0x02, 0x00, 0x01, 0x00, 0x01, 0x00];
    let effect = [0x10, 0x10];
    let operator = [0x10, 0x10, 0x00];
    for (what, before, rest, expected) in [
        ("unused bit, fields missing", &[][..], &[0x0d][..], 2),
        ("unused bit, kind 15", &[], &[0xf4], 2),
        ("field cut, kind 9", &[], &[0x91, 0x05], 1),
        ("field cut, kind 9", &[], &[0x91], 1),
        ("field 0, kind 9", &[], &[0x91, 0x00, 0x00], 3),
        ("kind 9, next row cut", &[], &[0x90], 10),
        ("kind 8, next row's bit", &[], &[0x80, 0x04], 10),
        ("a 0, b cut", &[], &[0x43, 0x00, 0x00, 0x01], 3),
        ("wrong a, b 0", &[], &[0x43, 0x09, 0x00, 0x00, 0x00], 3),
        ("wrong a, b cut", &[], &[0x43, 0x09, 0x00, 0x01], 1),
        (
            "wrong a, b cut, row 1",
            &[0x10],
            &[0x43, 0x09, 0x00, 0x01],
            1,
        ),
        (
            "wrong a, b 0, row 1",
            &[0x10],
            &[0x43, 0x09, 0x00, 0x00, 0x00],
            3,
        ),
        ("unused a present", &[], &[0x11, 0x01, 0x00], 10),
        ("unused a 0", &[], &[0x11, 0x00, 0x00], 3),
        ("unused b present", &[], &[0x22, 0x01, 0x00], 10),
        ("variable 0 of none", &[], &[0x20], 10),
        ("row 1 names itself", &[0x10], &[0x31, 0x01, 0x00], 10),
        ("effect's bit, kind 5", &effect, &[0x54], 2),
        ("effect kind 5", &effect, &[0x50], 11),
        ("effect kind 5, a cut", &effect, &[0x51, 0x01], 1),
        ("effect under formula 2", &effect, &[0x41, 0x02, 0x00], 11),
        ("effect both itself", &effect, &[0x30], 11),
        ("operator's bit 4", &operator, &[0x1f], 2),
        ("operator's bit 5", &operator, &[0x20], 2),
        ("operator's bit 6", &operator, &[0x48], 2),
        ("operator's bit 7", &operator, &[0x80], 2),
        (
            "precondition 2, effect 0",
            &operator,
            &[0x03, 0x02, 0x00, 0x00, 0x00],
            3,
        ),
        (
            "precondition 2, cost cut",
            &operator,
            &[0x05, 0x02, 0x00, 0x01],
            1,
        ),
        ("precondition 2", &operator, &[0x01, 0x02, 0x00, 0xff], 12),
        (
            "effect 1, cost 0",
            &operator,
            &[0x06, 0x01, 0x00, 0x00, 0x00],
            3,
        ),
        ("effect 1", &operator, &[0x02, 0x01, 0x00, 0xff], 12),
        ("no percent", &operator, &[0x08], 1),
        ("half a percent", &operator, &[0x08, 201], 1),
        ("percent 100", &operator, &[0x08, 100, 0], 3),
        (
            "percent 100, bytes follow",
            &operator,
            &[0x08, 100, 0, 0xff],
            3,
        ),
        ("percent 0", &operator, &[0x08, 0, 0], 0),
        ("percent 1", &operator, &[0x08, 1, 0], 0),
        ("percent 99", &operator, &[0x08, 99, 0], 0),
        ("percent 101", &operator, &[0x08, 101, 0], 0),
        ("percent 200", &operator, &[0x08, 200, 0], 0),
        ("percent 201", &operator, &[0x08, 201, 0], 24),
        ("percent 256", &operator, &[0x08, 0, 1], 24),
        ("percent 356", &operator, &[0x08, 100, 1], 24),
        ("percent 65,535", &operator, &[0x08, 255, 255], 24),
        (
            "percent 201, bytes follow",
            &operator,
            &[0x08, 201, 0, 0],
            24,
        ),
        ("percent 0, bytes follow", &operator, &[0x08, 0, 0, 0], 4),
        ("cost 0, percent cut", &operator, &[0x0c, 0, 0, 201], 3),
        ("cost 100, percent 0", &operator, &[0x0c, 100, 0, 0, 0], 0),
        ("effect 1, percent cut", &operator, &[0x0a, 1, 0, 100], 1),
        ("effect 1, percent 100", &operator, &[0x0a, 1, 0, 100, 0], 3),
        (
            "effect 1, percent 201",
            &operator,
            &[0x0a, 1, 0, 201, 0],
            12,
        ),
        (
            "precondition 1, percent 201",
            &operator,
            &[0x09, 1, 0, 201, 0],
            24,
        ),
        (
            "precondition 2, percent 100",
            &operator,
            &[0x09, 2, 0, 100, 0],
            3,
        ),
        (
            "precondition 2, percent 0",
            &operator,
            &[0x09, 2, 0, 0, 0],
            12,
        ),
        ("nothing wrong, bytes follow", &operator, &[0x00, 0xff], 4),
        ("nothing wrong", &operator, &[0x04, 0xff, 0xff], 0),
    ] {
        let file = [&head, before, rest].concat();
        let number = agree(trial, &file, &LARGEST)?.number;
        same(what, number, expected)?;
    }
    Ok(())
}

fn in_the_head(trial: &mut Trial) -> Verdict {
    for (what, file, expected) in [
        ("bit 6, field 0", &[0x44, 0x00, 0x00][..], 2),
        ("bit 7, field cut", &[0x84], 2),
        ("V 513, F 0", &[0x05, 0x01, 0x02, 0x00, 0x00], 3),
        ("V 513, F cut", &[0x05, 0x01, 0x02, 0x01], 1),
        ("V 513", &[0x05, 0x01, 0x02, 0x01, 0x00], 6),
        (
            "V 513, goal 9",
            &[0x25, 0x01, 0x02, 0x01, 0x00, 0x09, 0x00],
            6,
        ),
        ("F absent, goal 1", &[0x20, 0x01, 0x00], 6),
        ("W 1 of V 0", &[0x06, 0x01, 0x00, 0x01, 0x00], 6),
        ("W 1 of V 1", &[0x07, 0x01, 0x00, 0x01, 0x00, 0x01, 0x00], 6),
        ("goal F, then nothing", &[0x24, 0x01, 0x00, 0x01, 0x00], 7),
        ("goal 0 present", &[0x24, 0x01, 0x00, 0x00, 0x00], 3),
        ("spare bit", &[0x05, 0x01, 0x00, 0x01, 0x00, 0x02], 2),
        (
            "spare bit, value bit",
            &[0x05, 0x01, 0x00, 0x01, 0x00, 0x03],
            2,
        ),
        ("state cut", &[0x05, 0x09, 0x00, 0x01, 0x00, 0xff], 1),
        (
            "spare bit 1 of V 9",
            &[0x05, 0x09, 0x00, 0x01, 0x00, 0xff, 0x02],
            2,
        ),
    ] {
        same(what, agree(trial, file, &LARGEST)?.number, expected)?;
    }
    Ok(())
}

/// 5 comes after the head's 6 and 7 and before all that follows.
fn short_tables(trial: &mut Trial) -> Verdict {
    let parts = parts();
    let needs = damage::base().head.needs();
    for table in 0..5 {
        let mut lent = needs;
        let lengths = [
            &mut lent.initial,
            &mut lent.twins,
            &mut lent.formulas,
            &mut lent.effects,
            &mut lent.operators,
        ];
        for (at, length) in lengths.into_iter().enumerate() {
            *length -= usize::from(at == table);
        }
        for (part, bytes) in parts.iter().enumerate() {
            for fault in faults(part, bytes) {
                let file = file_with(&parts, &[&fault]);
                let expected = if part == 0 { fault.number } else { 5 };
                same("5", agree(trial, &file, &lent)?.number, expected)?;
            }
        }
    }
    Ok(())
}
