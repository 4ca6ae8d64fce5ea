use std::io::{IsTerminal, stderr};
use std::process;
use std::sync::atomic::{AtomicU64, Ordering::Relaxed};
use std::thread::sleep;
use std::time::{Duration, Instant};

use crate::FAILED;

/// How many seconds a case may take.
const PATIENCE: u64 = 120;

/// How far a run is.
#[derive(Default)]
pub struct Progress {
    cases: AtomicU64,
    disagreements: AtomicU64,
    beats: AtomicU64,
}

impl Progress {
    pub fn case(&self) {
        self.cases.fetch_add(1, Relaxed);
        self.beat();
    }

    /// Says that the run goes on.
    pub fn beat(&self) {
        self.beats.fetch_add(1, Relaxed);
    }

    pub fn disagreement(&self) {
        self.disagreements.fetch_add(1, Relaxed);
    }

    pub fn disagreements(&self) -> u64 {
        self.disagreements.load(Relaxed)
    }

    /// Writes a line each second, and ends the process if nothing goes on.
    pub fn watch(&self, seed: u64) -> ! {
        let start = Instant::now();
        let (mut last, mut still) = (0, 0);
        loop {
            sleep(Duration::from_secs(1));
            self.write_line(seed, start.elapsed().as_secs());
            let beats = self.beats.load(Relaxed);
            still = if beats == last { still + 1 } else { 0 };
            last = beats;
            if still == PATIENCE {
                eprintln!("\nno answer for {PATIENCE} seconds");
                process::exit(FAILED.into());
            }
        }
    }

    /// Leaves the line.
    pub fn end(&self) {
        if stderr().is_terminal() {
            eprintln!();
        }
    }

    fn write_line(&self, seed: u64, seconds: u64) {
        let (cases, disagreements) = (self.cases.load(Relaxed), self.disagreements());
        let line =
            format!("{seconds} s, {cases} cases, {disagreements} disagreements, seed {seed}");
        if stderr().is_terminal() {
            eprint!("\r{line}");
        } else {
            eprintln!("{line}");
        }
    }
}
