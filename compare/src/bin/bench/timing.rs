//! Processor times of several functions, taken in turn, so that what else the machine does meets them all.

use std::time::Instant;

/// A time as C has it.
#[repr(C)]
struct Timespec {
    seconds: i64,
    nanos: i64,
}

extern "C" {
    fn clock_gettime(clock: i32, time: *mut Timespec) -> i32;
}

/// The clock of the processor time that this thread has used, on Linux.
const THREAD_CLOCK: i32 = 3;

/// Microseconds that this thread has run; what other programs use of the processor doesn't count.
pub fn used() -> f64 {
    let mut time = Timespec { seconds: 0, nanos: 0 };
    // the pointer is that of a local of the type that C writes
    let failed = unsafe { clock_gettime(THREAD_CLOCK, &mut time) };
    assert!(failed == 0, "no clock of processor time");
    time.seconds as f64 * 1e6 + time.nanos as f64 / 1e3
}

/// How long a measurement may go on.
#[derive(Clone, Copy)]
pub struct Budget {
    /// Seconds after which no further round is begun.
    pub seconds: f64,
    /// Rounds that are made in any case.
    pub least_rounds: usize,
    /// Rounds that are enough.
    pub most_rounds: usize,
}

/// The time of each of so many calls, in microseconds.
fn batch(calls: usize, run: &mut dyn FnMut()) -> f64 {
    let start = used();
    for _ in 0..calls {
        run();
    }
    (used() - start) / calls as f64
}

/// How many calls take about two milliseconds.
fn calls_for(micros: f64) -> usize {
    (2000.0 / micros.max(0.01)).max(1.0) as usize
}

/// The least time of each function's calls, in microseconds; a round has a batch of calls of each.
pub fn measure<const N: usize>(budget: Budget, mut runs: [&mut dyn FnMut(); N]) -> [f64; N] {
    let start = Instant::now();
    let mut times: [f64; N] = std::array::from_fn(|i| batch(1, runs[i]));
    let calls = times.map(calls_for);
    for round in 0..budget.most_rounds {
        if round >= budget.least_rounds && start.elapsed().as_secs_f64() > budget.seconds {
            break;
        }
        for i in 0..N {
            times[i] = times[i].min(batch(calls[i], runs[i]));
        }
    }
    times
}

/// The time of one call, in microseconds.
pub fn once(run: &mut dyn FnMut()) -> f64 {
    batch(1, run)
}
