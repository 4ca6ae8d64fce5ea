//! Writes cases to `stdin` and what a program under test must answer to
//! `stdout`, in the folders `tables`, `checks`, `relations` and `reductions` of
//! the folder named by the only argument, and in its folder `report` the bench
//! table and the report on it.

mod checks;
mod layout;
mod random;
mod reductions;
mod relations;
mod report;
mod shapes;
mod suite;
mod tables;

use std::path::PathBuf;
use std::{env, io};

fn main() -> io::Result<()> {
    let folder = PathBuf::from(env::args_os().nth(1).expect("usage: generate FOLDER"));
    tables::suite().write(&folder, "tables")?;
    checks::suite().write(&folder, "checks")?;
    relations::suite().write(&folder, "relations")?;
    reductions::suite().write(&folder, "reductions")?;
    report::write(&folder)
}
