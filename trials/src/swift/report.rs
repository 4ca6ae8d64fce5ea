use std::io::{self, Write};

use checker::{MAX_INPUT, Refusal};

use super::reduction::Reduction;
use super::table::Table;

/// At least as many bytes as the longest report has.
const ROOM: usize = 64;

/// Writes the lines of the report on a table at the start of `out`, and returns
/// their length.
pub fn report(input: &[u8], out: &mut [u8]) -> Result<usize, Refusal> {
    let mut lines = [0; ROOM];
    let mut rest = &mut lines[..];
    let table = Table::read(&input[..input.len().min(MAX_INPUT)]);
    put_lines(table, &mut rest).expect("lines that fit");
    let length = ROOM - rest.len();
    out.get_mut(..length).ok_or(Refusal::ShortOutput)?.copy_from_slice(&lines[..length]);
    Ok(length)
}

fn put_lines(table: Result<Table, Refusal>, lines: &mut impl Write) -> io::Result<()> {
    match table {
        Err(refusal) => writeln!(lines, "refused {}", refusal.number()),
        Ok(table) => {
            let mut reduction = Reduction::NONE;
            reduction.find(&table);
            writeln!(lines, "reduced")?;
            writeln!(lines, "states {} {}", table.states, reduction.states())?;
            writeln!(lines, "rules {} {}", table.rule_count, reduction.rule_count())?;
            writeln!(lines, "rounds {}", reduction.rounds)
        }
    }
}
