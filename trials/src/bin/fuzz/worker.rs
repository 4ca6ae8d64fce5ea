use std::error::Error;
use std::fs::File;
use std::os::unix::fs::FileExt;
use std::path::Path;
use std::process::ExitCode;
use std::sync::Arc;
use std::thread;
use std::time::Instant;

use trials::{Proved, Tally, draw, run};

use crate::DISAGREED;
use crate::findings::Findings;
use crate::options::{End, Options, Range};
use crate::progress::Progress;

/// Runs the cases, each after its number was written to the file `running`.
pub fn work(options: &Options, range: &Range, running: &Path) -> Result<ExitCode, Box<dyn Error>> {
    let seed = options.seed;
    let start = Instant::now();
    let running = File::options().write(true).open(running)?;
    let progress = Arc::new(Progress::default());
    let watched = Arc::clone(&progress);
    thread::spawn(move || watched.watch(seed));

    let mut tally = Tally::default();
    let mut findings = Findings::new(&options.folder, seed);
    for number in range.first.. {
        let done = match range.end {
            End::Cases(cases) => number - range.first >= cases,
            End::Time(time) => start.elapsed() >= time,
        };
        if done {
            break;
        }
        running.write_all_at(format!("{number:20}").as_bytes(), 0)?;
        let case = draw(seed, number);
        if let Err(found) = run(&Proved, &case, &mut tally) {
            findings.add(number, &case, &found, &progress)?;
        }
        progress.case();
    }

    let disagreements = progress.disagreements();
    progress.end();
    println!("cases          {}", tally.cases);
    println!("calls          {}", tally.calls);
    println!("disagreements  {disagreements}");
    println!("seed           {seed}");
    println!("seconds        {:.1}", start.elapsed().as_secs_f64());
    print!("{tally}");
    Ok(if disagreements == 0 { ExitCode::SUCCESS } else { DISAGREED.into() })
}
