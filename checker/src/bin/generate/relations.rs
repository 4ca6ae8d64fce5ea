//! Tables whose simulation is to be computed.

mod cases;

use std::fmt::Write;

use checker::{Automaton, Pair, Refusal, Simulation};

use crate::suite::{FILL, Suite, checksum, sized};
use crate::tables::LONGEST;
use cases::{Case, Expected};

/// The longest output of a case.
const LONGEST_OUTPUT: usize = 8_300;

pub fn suite() -> Suite {
    let mut suite = Suite::default();
    for Case { name, expected, table, room, pairs } in cases::all() {
        let automaton = Automaton::read(&table);
        let simulation = automaton.as_ref().map(Simulation::of).map_err(|&refusal| refusal);
        let mut out = vec![FILL; room];
        let relation = relation(&simulation, &mut out);
        let answers: Vec<_> = pairs.iter().map(|&query| pair(&simulation, query)).collect();
        if let Some(Expected { relation: due, answers: answers_due }) = expected {
            assert_eq!(relation, due, "the relation of {name}");
            for ((query, answer), due) in pairs.iter().zip(&answers).zip(answers_due) {
                assert_eq!(*answer, due, "pair {query:?} of {name}");
            }
        }
        if relation.is_ok() {
            for (&query, &answer) in pairs.iter().zip(&answers) {
                check_bit(&out, query, answer);
            }
        } else {
            assert!(out.iter().all(|&byte| byte == FILL), "the output of {name} stays");
        }
        assert!(table.len() <= LONGEST, "the table of {name} is too long");
        assert!(room <= LONGEST_OUTPUT, "the output of {name} is too long");

        let mut input = sized(&table);
        input.extend((room as u32).to_le_bytes());
        input.extend((pairs.len() as u16).to_le_bytes());
        input.extend(pairs.iter().flat_map(|&(q, r)| [q, r]).flat_map(u16::to_le_bytes));
        suite.add(&name, input, &lines(relation, &out, &pairs, &answers));
    }
    suite
}

/// The numbers of rounds and pairs, or the number of a refusal.
fn relation(
    simulation: &Result<Simulation, Refusal>,
    out: &mut [u8],
) -> Result<(usize, usize), u8> {
    let simulation = simulation.as_ref().map_err(|refusal| refusal.number())?;
    simulation.write(out).map_err(Refusal::number)?;
    Ok((simulation.rounds(), simulation.pairs()))
}

fn pair(simulation: &Result<Simulation, Refusal>, (q, r): (u16, u16)) -> Result<Pair, u8> {
    let simulation = simulation.as_ref().map_err(|refusal| refusal.number())?;
    simulation.pair(q, r).map_err(Refusal::number)
}

/// Compares an answer with its bit in the rows.
fn check_bit(rows: &[u8], (q, r): (u16, u16), answer: Result<Pair, u8>) {
    if let Ok(answer) = answer {
        let byte = rows[usize::from(q) * 32 + usize::from(r) / 8];
        assert_eq!(byte >> (r % 8) & 1 == 1, answer == Pair::Yes, "pair ({q}, {r})");
    }
}

fn lines(
    relation: Result<(usize, usize), u8>,
    out: &[u8],
    pairs: &[(u16, u16)],
    answers: &[Result<Pair, u8>],
) -> String {
    let sum = checksum(out);
    let mut lines = match relation {
        Ok((rounds, count)) => format!("relation {rounds} {count} {sum}\n"),
        Err(number) => format!("refused {number} {sum}\n"),
    };
    for ((q, r), answer) in pairs.iter().zip(answers) {
        write!(lines, "pair {q} {r} ").unwrap();
        match answer {
            Ok(Pair::Yes) => writeln!(lines, "yes"),
            Ok(Pair::Rule(rule)) => writeln!(lines, "rule {rule}"),
            Err(number) => writeln!(lines, "refused {number}"),
        }
        .unwrap();
    }
    lines
}
