use std::path::PathBuf;
use std::str::FromStr;
use std::time::{Duration, SystemTime, UNIX_EPOCH};

/// The script sets `--folder`, and the supervisor `--running`.
pub const USAGE: &str = "usage: fuzz --cases N | --seconds N [--seed N] [--first N]
       fuzz --only N --seed N
       fuzz --replay FILE";

pub struct Options {
    pub task: Task,
    pub seed: u64,
    /// Where disagreements are written.
    pub folder: PathBuf,
}

pub enum Task {
    Run(Range),
    /// As `Run`, in a process of its own that keeps the number of the running
    /// case in a file.
    Work {
        range: Range,
        running: PathBuf,
    },
    Replay(PathBuf),
}

/// Which cases are run.
#[derive(Clone, Copy)]
pub struct Range {
    pub first: u64,
    pub end: End,
}

#[derive(Clone, Copy)]
pub enum End {
    Cases(u64),
    Time(Duration),
}

impl Options {
    pub fn read(mut arguments: impl Iterator<Item = String>) -> Result<Self, String> {
        let mut first = 0;
        let mut end = None;
        let mut seed = None;
        let mut folder = PathBuf::from(".");
        let mut running = None;
        let mut replay = None;
        while let Some(option) = arguments.next() {
            let value = arguments.next().ok_or(format!("{option} without a value"))?;
            match option.as_str() {
                "--cases" => end = Some(End::Cases(number(&value)?)),
                "--seconds" => end = Some(End::Time(Duration::from_secs(number(&value)?))),
                "--only" => (first, end) = (number(&value)?, Some(End::Cases(1))),
                "--first" => first = number(&value)?,
                "--seed" => seed = Some(number(&value)?),
                "--folder" => folder = value.into(),
                "--running" => running = Some(PathBuf::from(value)),
                "--replay" => replay = Some(PathBuf::from(value)),
                _ => return Err(format!("unknown option {option}")),
            }
        }
        let range = end.map(|end| Range { first, end });
        let task = match (replay, range, running) {
            (Some(file), None, None) => Task::Replay(file),
            (None, Some(range), Some(running)) => Task::Work { range, running },
            (None, Some(range), None) => Task::Run(range),
            _ => return Err("either a number of cases, a time or a file".into()),
        };
        Ok(Self { task, seed: seed.unwrap_or_else(seed_of_the_clock), folder })
    }
}

fn number<T: FromStr>(text: &str) -> Result<T, String> {
    text.parse().map_err(|_| format!("{text} is not a number"))
}

fn seed_of_the_clock() -> u64 {
    SystemTime::now().duration_since(UNIX_EPOCH).map_or(0, |time| time.as_secs())
}
