//! The whole time of the program beside that of the other implementation's.

use std::fs::File;
use std::path::{Path, PathBuf};
use std::process::{Command, Stdio};

use saqwillo_tests::examples;
use saqwillo_tests::file::file_of;
use saqwillo_tests::task::Task;

use crate::tasks;
use crate::times::{compare as compare_times, Clock, Report};

fn place(name: &str) -> PathBuf {
    Path::new(env!("CARGO_MANIFEST_DIR")).join("..").join(name)
}

/// The inputs are files of build/bench; when instructions are counted, only
/// those are written.
pub fn compare(report: Report) -> std::io::Result<()> {
    let folder = place("build/bench");
    std::fs::create_dir_all(&folder)?;
    let other = std::env::current_exe()?.with_file_name("other");
    let ours = place("target/bin/pnf");
    for (name, task) in [
        ("small", examples::whole()),
        ("typical", tasks::typical(0)),
        ("largest", tasks::large_finished()),
    ] {
        let path = folder.join(name).with_extension("task");
        write(&path, &task)?;
        if report == Report::Counts {
            continue;
        }
        if !ours.exists() || !other.exists() {
            println!(
                "program on {name} file: SKIPPED, target/bin/pnf is not built (make run builds it)"
            );
            continue;
        }
        compare_times(
            Clock::Programs,
            &format!("program, {name} file"),
            || run(&ours, &path),
            || run(&other, &path),
        );
    }
    Ok(())
}

fn write(path: &Path, task: &Task) -> std::io::Result<()> {
    std::fs::write(path, file_of(&task.head, &task.tables))
}

fn run(program: &Path, input: &Path) {
    let mut command = Command::new(program);
    let input = File::open(input).expect("written above");
    let status = command.stdin(input).stdout(Stdio::null()).status();
    assert!(status.is_ok_and(|status| status.success()));
}
