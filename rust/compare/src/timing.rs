//! Medians of interleaved runs.

use crate::benches::Bench;
use std::time::{Duration, Instant};

/// Median nanoseconds of one run on each side.
#[derive(Clone, Copy)]
pub struct Medians {
    pub ours: f64,
    pub theirs: f64,
}

impl Medians {
    /// Ours divided by theirs.
    pub fn ratio(&self) -> f64 {
        self.ours / self.theirs
    }
}

/// How long one operation is measured, and how often at least and at most.
const TIME: Duration = Duration::from_millis(600);
const FEWEST: usize = 15;
const MOST: usize = 4001;

/// Runs both sides in turn, and gives the median of each. Each run is timed alone: what is put back between runs does
/// not count, nor does the reading of the clock.
pub fn medians(bench: &mut Bench) -> Medians {
    let (mut ours, mut theirs) = (Vec::new(), Vec::new());
    let start = Instant::now();
    while start.elapsed() < TIME / 6 {
        run_once(bench, Bench::run_ours);
        run_once(bench, Bench::run_theirs);
    }
    let start = Instant::now();
    while ours.len() < FEWEST || (start.elapsed() < TIME && ours.len() < MOST) {
        ours.push(run_once(bench, Bench::run_ours));
        theirs.push(run_once(bench, Bench::run_theirs));
    }
    let cost = clock_cost();
    Medians {
        ours: median(&mut ours) - cost,
        theirs: median(&mut theirs) - cost,
    }
}

/// The nanoseconds of one run, of this thread's own time: what others run on the same processor does not count.
fn run_once(bench: &mut Bench, run: impl FnOnce(&mut Bench)) -> f64 {
    bench.restore();
    let start = thread_time();
    run(bench);
    (thread_time() - start).as_nanos() as f64
}

/// The time that this thread has run.
#[cfg(target_os = "linux")]
fn thread_time() -> Duration {
    #[repr(C)]
    struct Timespec {
        seconds: std::ffi::c_long,
        nanoseconds: std::ffi::c_long,
    }
    extern "C" {
        fn clock_gettime(clock: std::ffi::c_int, time: *mut Timespec) -> std::ffi::c_int;
    }
    const THREAD_TIME: std::ffi::c_int = 3;
    let mut time = Timespec {
        seconds: 0,
        nanoseconds: 0,
    };
    // The call writes the struct that it is given.
    let answer = unsafe { clock_gettime(THREAD_TIME, &mut time) };
    assert_eq!(answer, 0, "the clock can be read");
    Duration::new(time.seconds as u64, time.nanoseconds as u32)
}

/// The time since some start, where there is no such clock.
#[cfg(not(target_os = "linux"))]
fn thread_time() -> Duration {
    use std::sync::OnceLock;
    static START: OnceLock<Instant> = OnceLock::new();
    START.get_or_init(Instant::now).elapsed()
}

/// What reading the clock twice takes.
fn clock_cost() -> f64 {
    let mut costs: Vec<f64> = (0..1001)
        .map(|_| {
            let start = thread_time();
            (thread_time() - start).as_nanos() as f64
        })
        .collect();
    median(&mut costs)
}

fn median(times: &mut [f64]) -> f64 {
    times.sort_by(f64::total_cmp);
    times[times.len() / 2]
}
