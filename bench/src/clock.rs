//! Times of a few nanoseconds, by the processor's counter of ticks; and times of loops.

use std::arch::x86_64::{_mm_lfence, _rdtsc};
use std::hint::black_box;
use std::time::{Duration, Instant};

/// Nanoseconds of a tick, and the ticks that a measurement of nothing takes.
pub struct Clock {
    nanoseconds: f64,
    nothing: f64,
}

/// The counter, once all earlier instructions are done and before any later one starts.
#[inline(always)]
fn ticks() -> u64 {
    // Both instructions are there on every x86-64 processor and touch no memory.
    unsafe {
        _mm_lfence();
        let now = _rdtsc();
        _mm_lfence();
        now
    }
}

impl Clock {
    pub fn calibrated() -> Clock {
        let (started, first) = (Instant::now(), ticks());
        while started.elapsed() < Duration::from_millis(100) {}
        let (elapsed, last) = (started.elapsed(), ticks());
        let nothing = undisturbed_mean((0..10_000).map(|_| elapsed_ticks(|| ()).0).collect());
        Clock { nanoseconds: elapsed.as_nanos() as f64 / (last - first) as f64, nothing }
    }

    /// Ticks as nanoseconds, less those of the measurement itself.
    pub fn nanoseconds(&self, ticks: f64) -> f64 {
        (ticks - self.nothing).max(0.0) * self.nanoseconds
    }
}

/// The mean of a call's ticks over several rounds, without the greatest tenth, in which the machine did something else. The least of them
/// would not do: some processors' counters go on by steps of 10 ns, as much as a call takes.
pub fn undisturbed_mean(mut ticks: Vec<u64>) -> f64 {
    ticks.sort_unstable();
    ticks.truncate(ticks.len() - ticks.len().div_ceil(10));
    ticks.iter().sum::<u64>() as f64 / ticks.len() as f64
}

/// The ticks of one call, and what it gives; that is dropped outside of the measurement.
#[inline(always)]
pub fn elapsed_ticks<R>(call: impl FnOnce() -> R) -> (u64, R) {
    let first = ticks();
    let result = black_box(call());
    (ticks() - first, result)
}

/// The nanoseconds of two calls that leave all as it was, each the least mean over many loops. The loops of the two take turns,
/// so that what else the machine does disturbs both alike.
pub fn beside<P, R>(mut proved: impl FnMut() -> P, mut rust: impl FnMut() -> R) -> (f64, f64) {
    let (proved_times, rust_times) = (loop_length(&mut proved), loop_length(&mut rust));
    let (mut proved_least, mut rust_least) = (f64::INFINITY, f64::INFINITY);
    for _ in 0..LOOPS {
        proved_least = proved_least.min(mean(&mut proved, proved_times));
        rust_least = rust_least.min(mean(&mut rust, rust_times));
    }
    (proved_least, rust_least)
}

/// How often two loops take turns.
const LOOPS: usize = 30;

/// Calls enough for about a millisecond.
fn loop_length<R>(call: &mut impl FnMut() -> R) -> u32 {
    let once = mean(call, 20).max(1.0);
    (1_000_000.0 / once).clamp(5.0, 1_000_000.0) as u32
}

fn mean<R>(call: &mut impl FnMut() -> R, times: u32) -> f64 {
    let started = Instant::now();
    for _ in 0..times {
        black_box(call());
    }
    started.elapsed().as_nanos() as f64 / f64::from(times)
}

/// How often all of a table's figures are measured, since a machine's speed changes over seconds.
pub const PASSES: usize = 12;

/// The least of each figure of each row, over several passes through the rows.
pub fn least_of_passes<T, const N: usize>(rows: &[T], measure: impl Fn(&T) -> [f64; N]) -> Vec<[f64; N]> {
    let mut least = vec![[f64::INFINITY; N]; rows.len()];
    for _ in 0..PASSES {
        for (row, best) in rows.iter().zip(&mut least) {
            let times = measure(row);
            *best = std::array::from_fn(|place| best[place].min(times[place]));
        }
    }
    least
}
