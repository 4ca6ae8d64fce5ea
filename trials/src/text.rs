//! A case as text, a line for each of its parts.

use std::fmt;
use std::str::{FromStr, SplitWhitespace};

use crate::{Call, Case, Family};

impl fmt::Display for Case {
    fn fmt(&self, f: &mut fmt::Formatter) -> fmt::Result {
        writeln!(f, "family {}", self.family.name())?;
        writeln!(f, "fill {}", self.fill)?;
        writeln!(f, "table {}", hex(&self.table))?;
        self.calls.iter().try_for_each(|call| writeln!(f, "{call}"))
    }
}

impl fmt::Display for Call {
    fn fmt(&self, f: &mut fmt::Formatter) -> fmt::Result {
        write!(f, "{}", self.name())?;
        match self {
            Self::Judge { numbers } => write!(f, " {numbers}"),
            Self::Check { counts, tree, numbers } => {
                write!(f, " {} {numbers}", hex(tree))?;
                counts.iter().try_for_each(|count| write!(f, " {count}"))
            }
            Self::Relate { room, numbers } | Self::Reduce { room, numbers } => {
                write!(f, " {room} {numbers}")
            }
            Self::Compare { q, r, numbers } => write!(f, " {q} {r} {numbers}"),
            Self::Report { length, room, numbers } => write!(f, " {length} {room} {numbers}"),
        }
    }
}

/// The bytes in hexadecimal, `-` for none.
pub fn hex(bytes: &[u8]) -> String {
    if bytes.is_empty() {
        return "-".into();
    }
    bytes.iter().map(|byte| format!("{byte:02x}")).collect()
}

/// The first line that is none of a case.
#[derive(Clone, Debug, PartialEq, Eq)]
pub struct BadLine(String);

impl fmt::Display for BadLine {
    fn fmt(&self, f: &mut fmt::Formatter) -> fmt::Result {
        write!(f, "not a line of a case: {}", self.0)
    }
}

impl std::error::Error for BadLine {}

impl FromStr for Case {
    type Err = BadLine;

    /// Reads a case. Lines that begin with `#` are left out.
    fn from_str(text: &str) -> Result<Self, BadLine> {
        let mut case = Self { family: Family::Records, table: vec![], calls: vec![], fill: 0 };
        for line in text.lines().filter(|line| !line.starts_with('#')) {
            read_line(&mut case, line).ok_or_else(|| BadLine(line.into()))?;
        }
        Ok(case)
    }
}

fn read_line(case: &mut Case, line: &str) -> Option<()> {
    let mut fields = line.split_whitespace();
    let name = fields.next()?;
    let fields = &mut fields;
    match name {
        "family" => case.family = family(fields.next()?)?,
        "fill" => case.fill = number(fields)?,
        "table" => case.table = unhex(fields.next()?)?,
        _ => case.calls.push(call(name, fields)?),
    }
    fields.next().is_none().then_some(())
}

fn family(name: &str) -> Option<Family> {
    Family::ALL.into_iter().find(|family| family.name() == name)
}

fn call(name: &str, fields: &mut SplitWhitespace) -> Option<Call> {
    Some(match name {
        "judge" => Call::Judge { numbers: number(fields)? },
        "check" => {
            let (tree, numbers) = (unhex(fields.next()?)?, number(fields)?);
            let counts: Result<_, _> = fields.map(str::parse).collect();
            Call::Check { counts: counts.ok()?, tree, numbers }
        }
        "relate" => Call::Relate { room: number(fields)?, numbers: number(fields)? },
        "compare" => {
            Call::Compare { q: number(fields)?, r: number(fields)?, numbers: number(fields)? }
        }
        "reduce" => Call::Reduce { room: number(fields)?, numbers: number(fields)? },
        "report" => Call::Report {
            length: number(fields)?,
            room: number(fields)?,
            numbers: number(fields)?,
        },
        _ => return None,
    })
}

fn number<T: FromStr>(fields: &mut SplitWhitespace) -> Option<T> {
    fields.next()?.parse().ok()
}

fn unhex(text: &str) -> Option<Vec<u8>> {
    if text == "-" {
        return Some(vec![]);
    }
    let (pairs, []) = text.as_bytes().as_chunks::<2>() else { return None };
    let byte = |pair: &[u8; 2]| u8::from_str_radix(str::from_utf8(pair).ok()?, 16).ok();
    pairs.iter().map(byte).collect()
}

#[cfg(test)]
mod tests {
    use super::*;
    use crate::draw;

    #[test]
    fn cases_are_read_as_they_were_written() {
        for number in 0..500 {
            let case = draw(3, number);
            assert_eq!(format!("# seed 3\n{case}").parse(), Ok(case));
        }
    }

    #[test]
    fn other_lines_are_refused() {
        let lines = [
            "judge",
            "judge 3 3",
            "check -",
            "table 0",
            "table 0g",
            "family none",
            "reduce a 6",
            "",
        ];
        for line in lines {
            assert!(Case::from_str(&format!("{line}\n")).is_err(), "{line}");
        }
    }
}
