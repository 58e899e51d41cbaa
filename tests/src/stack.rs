//! How much stack a call takes: the stack below it is painted, and what has
//! lost its paint was used.

use std::hint::black_box;
use std::thread;

const PAINT: u64 = 0x5a5a_1234_5a5a_1234;
const WORD: usize = 8;
/// Left alone at the thread's end of the stack.
const SPARE: usize = 64 << 10;
/// Left alone below the painting function.
const OWN: usize = 4 << 10;

/// Runs this in a thread with so much stack; its answer and the bytes used.
pub fn measured<T: Send>(size: usize, body: impl FnOnce() -> T + Send) -> (T, usize) {
    thread::scope(|scope| {
        let builder = thread::Builder::new().stack_size(size);
        let thread = builder.spawn_scoped(scope, || {
            let (low, high) = paint(size);
            let answer = body();
            (answer, used(low, high))
        });
        let thread = thread.expect("a thread");
        thread.join().expect("the call returns")
    })
}

/// Paints from near the stack's end to just below this call.
#[inline(never)]
fn paint(size: usize) -> (usize, usize) {
    let here = black_box(0u64);
    let top = (&raw const here) as usize & !(WORD - 1);
    let (low, high) = (top - size + SPARE, top - OWN);
    for at in (low..high).step_by(WORD) {
        // The thread's own stack, below all that is in use.
        unsafe { (at as *mut u64).write_volatile(PAINT) };
    }
    (low, high)
}

#[inline(never)]
fn used(low: usize, high: usize) -> usize {
    let painted = (low..high).step_by(WORD).take_while(|&at| {
        // The same words.
        unsafe { (at as *const u64).read_volatile() == PAINT }
    });
    high + OWN - (low + WORD * painted.count())
}
