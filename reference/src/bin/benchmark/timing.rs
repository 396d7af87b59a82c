//! Timing two calls side by side.

use std::os::raw::{c_int, c_long};
use std::time::{Duration, Instant};

/// The two take turns until this much time has passed, at least so many times, and the best round
/// of each counts: whatever else the machine does can only make a round longer.
const ALL_ROUNDS: Duration = Duration::from_millis(3_000);
const FEWEST_ROUNDS: u32 = 20;

/// A round repeats its call for at least this long; short rounds slip between disturbances.
const ROUND: Duration = Duration::from_micros(500);

/// Seconds per call of both.
pub struct Pair {
    pub archive: f64,
    pub reference: f64,
}

impl Pair {
    pub fn measure(mut archive: impl FnMut(), mut reference: impl FnMut()) -> Pair {
        let mut best = Pair { archive: f64::MAX, reference: f64::MAX };
        let begin = Instant::now();
        let mut rounds = 0;
        while rounds < FEWEST_ROUNDS || begin.elapsed() < ALL_ROUNDS {
            best.archive = best.archive.min(seconds_per_call(&mut archive));
            best.reference = best.reference.min(seconds_per_call(&mut reference));
            rounds += 1;
        }
        best
    }

    /// How many times as long as the reference the archive takes.
    pub fn ratio(&self) -> f64 {
        self.archive / self.reference
    }
}

fn seconds_per_call(call: &mut impl FnMut()) -> f64 {
    let begin = Instant::now();
    let busy = processor_seconds();
    let mut calls = 0;
    while begin.elapsed() < ROUND {
        call();
        calls += 1;
    }
    (processor_seconds() - busy) / f64::from(calls)
}

#[repr(C)]
struct Timespec {
    seconds: i64,
    nanoseconds: c_long,
}

extern "C" {
    fn clock_gettime(clock: c_int, time: *mut Timespec) -> c_int;
}

/// Linux's number of the clock that runs only while this thread has a processor: on a shared
/// machine the time of others does not count.
const THREAD_CLOCK: c_int = 3;

fn processor_seconds() -> f64 {
    let mut time = Timespec { seconds: 0, nanoseconds: 0 };
    // SAFETY: the call writes one timespec, which is what it is given.
    let answer = unsafe { clock_gettime(THREAD_CLOCK, &mut time) };
    assert_eq!(answer, 0, "no processor clock of the thread");
    time.seconds as f64 + time.nanoseconds as f64 / 1e9
}
