//! Measuring times: the processor's, so that other programs on the machine disturb as little as possible.

use std::ffi::{c_int, c_long};
use std::hint::black_box;
use std::time::{Duration, Instant};

/// `struct timespec` of Linux on 64 bits.
#[repr(C)]
struct TimeSpec {
    seconds: i64,
    nanoseconds: c_long,
}

extern "C" {
    fn clock_gettime(clock: c_int, time: *mut TimeSpec) -> c_int;
}

/// The clock of the calling thread's own processor time on Linux.
const CLOCK_THREAD_CPUTIME_ID: c_int = 3;

/// The processor time of this thread.
fn processor_time() -> Duration {
    let mut time = TimeSpec { seconds: 0, nanoseconds: 0 };
    // SAFETY: the struct has the layout that the C library writes, and is borrowed alone for the call.
    let answer = unsafe { clock_gettime(CLOCK_THREAD_CPUTIME_ID, &mut time) };
    assert_eq!(answer, 0, "Linux has a clock for each thread");
    Duration::from_secs(time.seconds as u64) + Duration::from_nanos(time.nanoseconds as u64)
}

/// How a call is measured: the time of a batch, how many batches there are at most and at least, the time after which there are no more, and
/// how often several calls take turns.
struct Pace {
    batch: Duration,
    most_batches: usize,
    fewest_batches: usize,
    patience: Duration,
    rounds: usize,
}

const USUAL: Pace =
    Pace { batch: Duration::from_millis(5), most_batches: 40, fewest_batches: 3, patience: Duration::from_millis(600), rounds: 3 };

/// For small differences of calls, which take turns more often, each time for a shorter time.
const SHORT: Pace =
    Pace { batch: Duration::from_millis(1), most_batches: 4, fewest_batches: 1, patience: Duration::from_millis(20), rounds: 24 };

/// Nanoseconds of one call: the best batch's mean.
pub fn nanoseconds<T>(call: impl FnMut() -> T) -> f64 {
    best_batch(&USUAL, call)
}

fn best_batch<T>(pace: &Pace, mut call: impl FnMut() -> T) -> f64 {
    let mut calls = 1u32;
    let mut best = f64::INFINITY;
    let mut batches = 0;
    let begin = Instant::now();
    while batches < pace.fewest_batches || (batches < pace.most_batches && begin.elapsed() < pace.patience) {
        let start = processor_time();
        for _ in 0..calls {
            black_box(call());
        }
        let time = processor_time() - start;
        if time < pace.batch && calls < 1 << 24 {
            calls *= 2;
            continue;
        }
        best = best.min(time.as_nanos() as f64 / f64::from(calls));
        batches += 1;
    }
    best
}

/// Nanoseconds of each of several calls, taken in turns: a machine that changes its pace changes it for all of them.
pub fn in_turns<const N: usize>(calls: [&mut dyn FnMut(); N]) -> [f64; N] {
    turns(&USUAL, calls)
}

/// As [`in_turns`], for calls of which small differences are taken.
pub fn in_short_turns<const N: usize>(calls: [&mut dyn FnMut(); N]) -> [f64; N] {
    turns(&SHORT, calls)
}

fn turns<const N: usize>(pace: &Pace, mut calls: [&mut dyn FnMut(); N]) -> [f64; N] {
    let mut best = [f64::INFINITY; N];
    for _ in 0..pace.rounds {
        for (call, best) in calls.iter_mut().zip(&mut best) {
            *best = best.min(best_batch(pace, call));
        }
    }
    best
}

/// The machine's own words.
pub fn machine() -> String {
    let cpu = std::fs::read_to_string("/proc/cpuinfo").unwrap_or_default();
    let model = cpu.lines().find(|line| line.starts_with("model name")).and_then(|line| line.split_once(": "));
    let system = std::fs::read_to_string("/proc/sys/kernel/osrelease").unwrap_or_default();
    let cores = std::thread::available_parallelism().map_or(1, usize::from);
    format!("{}, {cores} cores, {} {}", model.map_or("unknown", |(_, name)| name), std::env::consts::OS, system.trim())
}
