use std::ffi::{c_int, c_long};
use std::time::Duration;

/// How long is measured.
#[derive(Clone, Copy)]
pub struct Effort {
    /// How often each side is measured, and how often where a call is slow.
    runs: usize,
    slow_runs: usize,
    /// How long one measurement takes at least.
    least: Duration,
    /// Whether the slowest workload's stack is measured too.
    pub all_stacks: bool,
}

const SLOW: Duration = Duration::from_millis(500);

impl Effort {
    pub const FULL: Self =
        Self { runs: 15, slow_runs: 3, least: Duration::from_millis(10), all_stacks: true };
    pub const QUICK: Self =
        Self { runs: 3, slow_runs: 1, least: Duration::from_millis(2), all_stacks: false };
}

/// What a call takes on each side, in runs in which the sides take turns.
pub struct Comparison<const SIDES: usize> {
    seconds: [Vec<f64>; SIDES],
}

impl<const SIDES: usize> Comparison<SIDES> {
    pub fn new(effort: Effort, sides: [&mut dyn FnMut(); SIDES]) -> Self {
        let mut sides = sides.map(|call| Side::warm(call, effort.least));
        let slow = sides.iter().any(Side::is_slow);
        for _ in 1..if slow { effort.slow_runs } else { effort.runs } {
            for side in &mut sides {
                side.measure();
            }
        }
        Self { seconds: sides.map(|side| side.seconds) }
    }

    /// The median of a side's runs.
    pub fn seconds(&self, side: usize) -> f64 {
        median(self.seconds[side].clone())
    }

    /// The median of the ratios of one side to another in each run.
    pub fn ratio(&self, side: usize, to: usize) -> f64 {
        let runs = self.seconds[side].iter().zip(&self.seconds[to]);
        median(runs.map(|(side, to)| side / to).collect())
    }
}

fn median(mut values: Vec<f64>) -> f64 {
    values.sort_by(f64::total_cmp);
    values[values.len() / 2]
}

struct Side<'a> {
    call: &'a mut dyn FnMut(),
    /// How often the call is made in one measurement.
    loops: u32,
    seconds: Vec<f64>,
}

impl<'a> Side<'a> {
    /// Makes the call until one measurement is long enough, which is the first.
    fn warm(call: &'a mut dyn FnMut(), least: Duration) -> Self {
        let mut side = Self { call, loops: 1, seconds: vec![] };
        while side.measure() < least {
            side.loops *= 2;
            side.seconds.clear();
        }
        side
    }

    fn is_slow(&self) -> bool {
        self.seconds[0] > SLOW.as_secs_f64()
    }

    /// Returns how long the measurement took.
    fn measure(&mut self) -> Duration {
        let start = thread_time();
        (0..self.loops).for_each(|_| (self.call)());
        let time = thread_time() - start;
        self.seconds.push(time.as_secs_f64() / f64::from(self.loops));
        time
    }
}

/// A `timespec`.
#[repr(C)]
struct Time {
    seconds: c_long,
    nanoseconds: c_long,
}

const CLOCK_THREAD_CPUTIME_ID: c_int = 3;

unsafe extern "C" {
    fn clock_gettime(clock: c_int, time: *mut Time) -> c_int;
}

/// How long this thread has run, without the times in which others did.
fn thread_time() -> Duration {
    let mut time = Time { seconds: 0, nanoseconds: 0 };
    // SAFETY: the call writes a `timespec`.
    let answer = unsafe { clock_gettime(CLOCK_THREAD_CPUTIME_ID, &mut time) };
    assert_eq!(answer, 0, "no clock");
    Duration::new(time.seconds as u64, time.nanoseconds as u32)
}
