use std::error::Error;
use std::path::Path;
use std::process::{Command, ExitCode, ExitStatus};
use std::{env, fs, process};

use trials::draw;

use crate::options::{End, Options, Range};
use crate::{DISAGREED, FAILED, findings};

/// Runs the cases in a process of its own, so that a case that breaks it or does
/// not end can be named and written.
pub fn supervise(options: &Options, range: &Range) -> Result<ExitCode, Box<dyn Error>> {
    fs::create_dir_all(&options.folder)?;
    let running = options.folder.join(format!("running-{}", process::id()));
    fs::write(&running, "")?;
    let status = worker(options, range, &running).status()?;
    let case = fs::read_to_string(&running)?;
    fs::remove_file(&running)?;
    match status.code() {
        Some(0) => Ok(ExitCode::SUCCESS),
        Some(1) => Ok(DISAGREED.into()),
        _ => {
            name(options, status, case.trim().parse()?)?;
            Ok(FAILED.into())
        }
    }
}

fn worker(options: &Options, range: &Range, running: &Path) -> Command {
    let (option, value) = match range.end {
        End::Cases(cases) => ("--cases", cases),
        End::Time(time) => ("--seconds", time.as_secs()),
    };
    let mut command = Command::new(env::current_exe().expect("the path of this program"));
    command.arg("--running").arg(running).arg("--folder").arg(&options.folder);
    for (option, value) in [(option, value), ("--seed", options.seed), ("--first", range.first)] {
        command.arg(option).arg(value.to_string());
    }
    command
}

/// Names the case in which the worker ended, and writes it.
fn name(options: &Options, status: ExitStatus, number: u64) -> Result<(), Box<dyn Error>> {
    let seed = options.seed;
    let what = format!("ended with {status}");
    let file = findings::write(&options.folder, seed, number, "", &what, &draw(seed, number))?;
    eprintln!("seed {seed}, case {number} {what}: {}", file.display());
    Ok(())
}
