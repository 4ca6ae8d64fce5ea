//! The bench table and the report on it.

use std::io;
use std::path::Path;

use checker::report_on;

use crate::layout::bench;
use crate::suite;

/// The report that document 01 gives.
const REPORT: &str = "reduced\nstates 5 2\nrules 8 3\nrounds 1\n";

/// Writes `stdin` and `stdout` in the folder `report` of the folder.
pub fn write(folder: &Path) -> io::Result<()> {
    let bench = bench();
    assert_eq!(bench.len(), 125);
    let report = report_on(&bench);
    assert_eq!(report, REPORT);
    println!("report: {} bytes in, {} bytes out", bench.len(), report.len());
    suite::write(&folder.join("report"), &bench, &report)
}
