use std::collections::HashSet;
use std::path::{Path, PathBuf};
use std::time::{Duration, Instant};
use std::{fs, io};

use trials::{Case, Disagreement, Kind, Proved, Tally, run, shrink};

use crate::progress::Progress;

const SHRINK_RUNS: u32 = 100_000;
const SHRINK_TIME: Duration = Duration::from_secs(60);

/// The disagreements of a run. The first of each kind is written and shrunk.
pub struct Findings<'a> {
    folder: &'a Path,
    seed: u64,
    kinds: HashSet<Kind>,
}

impl<'a> Findings<'a> {
    pub fn new(folder: &'a Path, seed: u64) -> Self {
        Self { folder, seed, kinds: HashSet::new() }
    }

    pub fn add(
        &mut self,
        number: u64,
        case: &Case,
        found: &Disagreement,
        progress: &Progress,
    ) -> io::Result<()> {
        progress.disagreement();
        if !self.kinds.insert(found.kind) {
            return Ok(());
        }
        let file = write(self.folder, self.seed, number, "", &found.to_string(), case)?;
        eprintln!("\ncase {number} of seed {} disagrees: {}", self.seed, file.display());
        let (small, what) = smaller(case, found, progress);
        let file = write(self.folder, self.seed, number, "-small", &what, &small)?;
        eprintln!("made smaller: {}", file.display());
        Ok(())
    }
}

/// A smaller case of the same kind of disagreement, and its disagreement.
fn smaller(case: &Case, found: &Disagreement, progress: &Progress) -> (Case, String) {
    let start = Instant::now();
    let mut runs = 0;
    let mut what = found.to_string();
    let small = shrink(case, |case| {
        runs += 1;
        if runs > SHRINK_RUNS || start.elapsed() > SHRINK_TIME {
            return false;
        }
        progress.beat();
        match run(&Proved, case, &mut Tally::default()) {
            Err(other) if other.kind == found.kind => {
                what = other.to_string();
                true
            }
            _ => false,
        }
    });
    (small, what)
}

/// Writes a case with what was said of it.
pub fn write(
    folder: &Path,
    seed: u64,
    number: u64,
    suffix: &str,
    what: &str,
    case: &Case,
) -> io::Result<PathBuf> {
    let file = folder.join(format!("seed-{seed}-case-{number}{suffix}.txt"));
    fs::write(&file, format!("# seed {seed}, case {number}\n# {what}\n{case}"))?;
    Ok(file)
}
