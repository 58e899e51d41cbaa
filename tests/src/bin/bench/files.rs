//! Reading and writing.

use saqwillo_tests::best::{read, write, Room, Rows};
use saqwillo_tests::entries::MOST_FILE_BYTES;
use saqwillo_tests::examples;
use saqwillo_tests::file::{file_of, LARGEST};
use saqwillo_tests::task::*;

use crate::calls::reading as calls;
use crate::tasks;
use crate::times::Report;

pub fn compare(report: Report) {
    let small = examples::whole();
    let typical = tasks::typical(40);
    let longest = tasks::longest();
    for (name, task) in [
        ("small", &small),
        ("typical", &typical),
        ("longest", &longest),
    ] {
        let file = file_of(&task.head, &task.tables);
        let name = format!("{name} file, {} bytes", file.len());
        reading(report, &format!("read {name}"), &file, &task.head.needs());
        writing(report, &format!("write {name}"), task, file.len());
    }
    let file = file_of(&small.head, &small.tables);
    reading(report, "read small file, all lent", &file, &LARGEST);
    writing(
        report,
        "write small file, all lent",
        &small,
        MOST_FILE_BYTES,
    );
}

fn reading(report: Report, name: &str, file: &[u8], lent: &Lengths) {
    let mut ours = Tables::zeros(lent);
    let mut theirs = Tables::zeros(lent);
    let mut head = [0; 6];
    let number = calls::read_quickly(file, &mut head, &mut ours);
    let other = read::read(file, Room::of(&mut theirs));
    assert_eq!((number, Ok(Head::from_words(head))), (0, other));
    assert!(ours == theirs);
    report.compare(
        name,
        || {
            calls::read_quickly(file, &mut head, &mut ours);
        },
        || {
            let _ = std::hint::black_box(read::read(file, Room::of(&mut theirs)));
        },
    );
}

fn writing(report: Report, name: &str, task: &Task, length: usize) {
    let mut ours = vec![0; length];
    let mut theirs = vec![0; length];
    let rows = Rows::of(task);
    let written = calls::write_quickly(task, &mut ours);
    assert_eq!(Ok(written), write::write(&rows, &mut theirs));
    assert!(ours == theirs);
    report.compare(
        name,
        || {
            calls::write_quickly(task, &mut ours);
        },
        || {
            let _ = std::hint::black_box(write::write(&rows, &mut theirs));
        },
    );
}
