//! Runs the proved library and the checker side by side on generated cases.

mod findings;
mod options;
mod progress;
mod supervisor;
mod worker;

use std::path::Path;
use std::process::ExitCode;
use std::{env, fs};

use options::{Options, Task};
use trials::{Case, Proved, Tally, run};

/// The status after a disagreement.
const DISAGREED: u8 = 1;
/// The status if the run could not be made or did not end.
const FAILED: u8 = 2;

fn main() -> ExitCode {
    let options = match Options::read(env::args().skip(1)) {
        Ok(options) => options,
        Err(message) => {
            eprintln!("{message}\n{}", options::USAGE);
            return FAILED.into();
        }
    };
    let done = match &options.task {
        Task::Replay(file) => replay(file),
        Task::Run(range) => supervisor::supervise(&options, range),
        Task::Work { range, running } => worker::work(&options, range, running),
    };
    done.unwrap_or_else(|error| {
        eprintln!("{error}");
        FAILED.into()
    })
}

fn replay(file: &Path) -> Result<ExitCode, Box<dyn std::error::Error>> {
    let case: Case = fs::read_to_string(file)?.parse()?;
    match run(&Proved, &case, &mut Tally::default()) {
        Ok(()) => {
            println!("no disagreement");
            Ok(ExitCode::SUCCESS)
        }
        Err(disagreement) => {
            println!("{disagreement}");
            Ok(DISAGREED.into())
        }
    }
}
