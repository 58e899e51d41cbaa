//! libFuzzer's target. An input is a task file; the file chooses the buffer
//! lengths, states and sequences that it is tried with.

use saqwillo_tests::entry_trial;
use saqwillo_tests::random::Random;

/// # Safety
/// libFuzzer passes `size` readable bytes.
#[no_mangle]
pub unsafe extern "C" fn LLVMFuzzerTestOneInput(data: *const u8, size: usize) -> i32 {
    let file = match size {
        0 => &[],
        _ => std::slice::from_raw_parts(data, size),
    };
    let seed = file.iter().fold(size as u64, |seed, &byte| {
        seed.rotate_left(5) ^ u64::from(byte)
    });
    if let Err(dump) = entry_trial::file(&mut Random::new(seed), file) {
        eprintln!("{dump}");
        std::process::abort();
    }
    0
}
