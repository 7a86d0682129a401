//! Processor time of this thread, so that other work on the machine counts as little as possible, and medians of runs in turns.

use std::hint::black_box;

/// How many runs a median is of.
pub const RUNS: usize = 15;

#[repr(C)]
struct Timespec {
    seconds: i64,
    nanoseconds: i64,
}

extern "C" {
    fn clock_gettime(clock: i32, time: *mut Timespec) -> i32;
}

/// Linux's clock of the calling thread.
const THREAD_CLOCK: i32 = 3;

/// Nanoseconds that this thread has run.
fn processor_time() -> f64 {
    let mut time = Timespec {
        seconds: 0,
        nanoseconds: 0,
    };
    // SAFETY: `time` is a timespec of 64-bit Linux, and the call writes nothing else.
    let failed = unsafe { clock_gettime(THREAD_CLOCK, &mut time) } != 0;
    assert!(!failed, "no clock of the thread's processor time");
    time.seconds as f64 * 1e9 + time.nanoseconds as f64
}

/// Nanoseconds for each of the items, over all of them.
pub fn time_each<T, A>(items: &[T], mut answer: impl FnMut(&T) -> A) -> f64 {
    let began = processor_time();
    for item in black_box(items) {
        black_box(answer(item));
    }
    (processor_time() - began) / items.len() as f64
}

/// What each place of a turn comes to over all runs. A turn times everything that is to be compared, so that a slow moment falls on all of it.
pub fn medians<const N: usize>(turn: impl FnMut() -> [f64; N]) -> [f64; N] {
    let runs: Vec<[f64; N]> = std::iter::repeat_with(turn).take(RUNS).collect();
    std::array::from_fn(|place| median(runs.iter().map(|run| run[place]).collect()))
}

pub fn median(mut times: Vec<f64>) -> f64 {
    times.sort_by(f64::total_cmp);
    times[times.len() / 2]
}
