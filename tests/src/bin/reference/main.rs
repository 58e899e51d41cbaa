//! Self-checks of the other implementation; the library is not needed.
//!
//! Arguments: `[--seed N] [GROUP ...]`.

mod best;
mod cheapest;
mod compiling;
mod examples;
mod files;
mod operator_records;
mod runs;

use saqwillo_tests::harness::{self, same};

fn main() {
    let mut tests = Vec::new();
    tests.extend(examples::tests());
    tests.extend(files::tests());
    tests.extend(runs::tests());
    tests.extend(compiling::tests());
    tests.extend(best::tests());
    tests.extend(cheapest::tests());
    tests.extend(operator_records::tests());
    std::process::exit(harness::run(&tests));
}
