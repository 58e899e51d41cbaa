//! The compiling program as the other implementation makes it, in its
//! quickest form: what the library's program is timed beside.

use std::io::{stdin, stdout, Read, Write};

use saqwillo_tests::best::print::program;

fn main() -> std::io::Result<()> {
    let mut input = Vec::new();
    stdin().lock().read_to_end(&mut input)?;
    stdout().lock().write_all(&program(&input))
}
