//! The compiling program against the other implementation: what it prints
//! for each input. `PNF_PROGRAM` is its path, else target/bin/pnf.
//!
//! Arguments: `[--seed N] [GROUP ...]`.

use std::io::Write;
use std::path::{Path, PathBuf};
use std::process::{Command, Stdio};

use saqwillo_tests::damage;
use saqwillo_tests::deep::{deep_task, EFFECTS, FORMULAS};
use saqwillo_tests::entries::MOST_FILE_BYTES;
use saqwillo_tests::examples;
use saqwillo_tests::file::file_of;
use saqwillo_tests::generate::{self, Shape};
use saqwillo_tests::harness::{self, Test, Trial, Verdict};
use saqwillo_tests::print::program;
use saqwillo_tests::stored;

fn main() {
    let test = |name, body| Test {
        group: "program",
        name,
        body,
    };
    let tests = [
        test("stored files", stored_files),
        test("random files", random_files),
        test("large files", large_files),
        test("deepest files", deepest_files),
        test("empty input", empty_input),
        test("long inputs", long_inputs),
        test("input in pieces", input_in_pieces),
    ];
    std::process::exit(harness::run(&tests));
}

/// What the program prints, given its input in pieces of so many bytes.
fn printed(input: &[u8], piece: usize) -> std::io::Result<String> {
    let path = match std::env::var_os("PNF_PROGRAM") {
        Some(path) => PathBuf::from(path),
        None => Path::new(env!("CARGO_MANIFEST_DIR")).join("../target/bin/pnf"),
    };
    let mut command = Command::new(path);
    let mut child = command
        .stdin(Stdio::piped())
        .stdout(Stdio::piped())
        .spawn()?;
    let mut pipe = child.stdin.take().expect("piped above");
    let owned = input.to_vec();
    // The program may stop reading before the input ends.
    let writer = std::thread::spawn(move || {
        let mut pieces = owned.chunks(piece);
        pieces.all(|bytes| pipe.write_all(bytes).is_ok())
    });
    let output = child.wait_with_output()?;
    let _ = writer.join();
    Ok(String::from_utf8_lossy(&output.stdout).into_owned())
}

fn agree(trial: &mut Trial, input: &[u8], piece: usize) -> Verdict {
    trial.case();
    let found = printed(input, piece).map_err(|error| format!("  {error}"))?;
    let expected = program(input);
    if found == expected {
        return Ok(());
    }
    let shown = &input[..input.len().min(400)];
    Err(format!(
        "  input [{}] {shown:02x?}\n  program {found:.1000}\n  other implementation {expected:.1000}",
        input.len()
    ))
}

fn stored_files(trial: &mut Trial) -> Verdict {
    let files = stored::files().map_err(|error| format!("  {error}"))?;
    for (_, input) in files {
        agree(trial, &input, 70_000)?;
    }
    Ok(())
}

fn random_files(trial: &mut Trial) -> Verdict {
    for round in 0..600 {
        let random = &mut trial.random;
        let with_twins = random.chance(20);
        let shape = Shape::small(random, with_twins);
        let task = generate::task(random, &shape);
        let mut file = file_of(&task.head, &task.tables);
        if round % 2 == 0 {
            damage::file(random, &mut file);
        }
        agree(trial, &file, 70_000)?;
    }
    Ok(())
}

fn large_files(trial: &mut Trial) -> Verdict {
    for _ in 0..20 {
        let shape = Shape::large(&mut trial.random);
        let task = generate::task(&mut trial.random, &shape);
        agree(trial, &file_of(&task.head, &task.tables), 70_000)?;
    }
    for task in [
        examples::conjunctions(4094),
        examples::some_twins(256, 256),
        examples::doubling_formulas(4000),
        examples::many_rules(&[512, 512, 341]),
    ] {
        agree(trial, &file_of(&task.head, &task.tables), 70_000)?;
    }
    Ok(())
}

/// Formulas and effects as deep as the limits allow, on the stack that a
/// process gets.
fn deepest_files(trial: &mut Trial) -> Verdict {
    for (_, formula_row) in FORMULAS {
        for (_, effect_row) in EFFECTS {
            let task = deep_task(formula_row, effect_row);
            agree(trial, &file_of(&task.head, &task.tables), 70_000)?;
        }
    }
    Ok(())
}

fn empty_input(trial: &mut Trial) -> Verdict {
    agree(trial, &[], 70_000)
}

/// Inputs longer than any valid file get their right number too.
fn long_inputs(trial: &mut Trial) -> Verdict {
    let whole = examples::whole();
    let whole = file_of(&whole.head, &whole.tables);
    let bound = MOST_FILE_BYTES;
    for length in [
        bound - 1,
        bound,
        bound + 1,
        65_535,
        65_536,
        65_537,
        1_000_000,
    ] {
        for start in [&whole[..], &whole[..41], &[0xff], &[0x04, 0, 0], &[]] {
            let mut input = start.to_vec();
            input.resize(length, 0);
            agree(trial, &input, 70_000)?;
        }
    }
    let shape = Shape::largest(&mut trial.random);
    let task = generate::task(&mut trial.random, &shape);
    let mut file = file_of(&task.head, &task.tables);
    agree(trial, &file, 70_000)?;
    for length in [bound + 1, 65_536, 65_537, 100_000] {
        file.resize(length, 0);
        agree(trial, &file, 70_000)?;
    }
    Ok(())
}

fn input_in_pieces(trial: &mut Trial) -> Verdict {
    let task = examples::running();
    let file = file_of(&task.head, &task.tables);
    for piece in [1, 2, 7, 100] {
        agree(trial, &file, piece)?;
        agree(trial, &file[..file.len() - 1], piece)?;
    }
    Ok(())
}
