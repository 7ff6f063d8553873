// How long some work takes: the least of many batches, whose answers are summed and must be the expected ones.

use crate::fail;

// Every cell is timed in each round, so that a slow spell of the machine does not fall on one cell only.
pub const ROUNDS: usize = 20;
pub const BATCHES: usize = 20;
pub const BATCH_NANOSECONDS: f64 = 1e6;

#[repr(C)]
struct Time {
    seconds: i64,
    nanoseconds: i64,
}

extern "C" {
    fn clock_gettime(clock: i32, time: *mut Time) -> i32;
}

// The processor time of this thread: what other work takes is not in it.
fn now() -> f64 {
    const THREAD_TIME: i32 = 3;
    let mut time = Time { seconds: 0, nanoseconds: 0 };
    // SAFETY: the pointer is to a live timespec of Linux on a 64-bit machine.
    if unsafe { clock_gettime(THREAD_TIME, &mut time) } != 0 {
        fail("no thread clock");
    }
    time.seconds as f64 * 1e9 + time.nanoseconds as f64
}

pub fn batch(work: impl Fn() -> u64, passes: usize, expected: u64) -> f64 {
    let begun = now();
    let mut sum = 0u64;
    for _ in 0..passes {
        sum = sum.wrapping_add(work());
    }
    let taken = now() - begun;
    if sum != expected.wrapping_mul(passes as u64) {
        fail("a timed batch gave other answers than the checked calls");
    }
    taken
}

// How many passes over the work fill a batch.
pub fn passes_of(work: impl Fn() -> u64, expected: u64) -> usize {
    let once = (0..5).map(|_| batch(&work, 4, expected) / 4.0).fold(f64::INFINITY, f64::min);
    (BATCH_NANOSECONDS / once).ceil() as usize
}
