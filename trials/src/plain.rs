use checker::{Answer, Automaton, Counts, Pair, Reduced, Refusal, Simulation, Subtree};

use crate::library::{NO, OK, SHORT, answer, number};
use crate::{CheckArrays, Lent, Library};

/// The checker, behind the same calls.
#[derive(Clone, Copy, Debug)]
pub struct Plain;

impl Library for Plain {
    fn judge(&self, table: &mut Lent<u8>, numbers: &mut Lent<usize>) -> u32 {
        answer(numbers, || {
            let automaton = Automaton::read(table.content())?;
            Ok([automaton.states, automaton.ranks.len(), automaton.rules.len()])
        })
    }

    fn check(&self, table: &mut Lent<u8>, tree: &mut Lent<u8>, arrays: CheckArrays<'_>) -> u32 {
        let CheckArrays { counts, numbers } = arrays;
        let Some(counts) = counts.content_mut().first_chunk_mut() else { return SHORT };
        let Some(place) = numbers.content_mut().first_chunk_mut() else { return SHORT };
        let [accepted, rejected, refused] = *counts;
        let before = Counts { accepted, rejected, refused };
        let (answer, after) = checker::check(table.content(), tree.content(), before);
        *counts = [after.accepted, after.rejected, after.refused];
        match answer {
            Answer::Accepted => OK,
            Answer::Rejected(Subtree { node, size }) => {
                *place = [node, size];
                NO
            }
            Answer::Refused(refusal) => number(refusal),
        }
    }

    fn relate(&self, table: &mut Lent<u8>, out: &mut Lent<u8>, numbers: &mut Lent<usize>) -> u32 {
        answer(numbers, || {
            let automaton = Automaton::read(table.content())?;
            let simulation = Simulation::of(&automaton);
            simulation.write(out.content_mut())?;
            Ok([simulation.rounds(), simulation.pairs()])
        })
    }

    fn compare(&self, table: &mut Lent<u8>, q: usize, r: usize, numbers: &mut Lent<usize>) -> u32 {
        let Some(place) = numbers.content_mut().first_mut() else { return SHORT };
        match pair(table.content(), q, r) {
            Ok(Pair::Yes) => OK,
            Ok(Pair::Rule(rule)) => {
                *place = rule;
                NO
            }
            Err(refusal) => number(refusal),
        }
    }

    fn reduce(&self, table: &mut Lent<u8>, out: &mut Lent<u8>, numbers: &mut Lent<usize>) -> u32 {
        answer(numbers, || {
            let Reduced { length, states, rules, rounds } =
                checker::reduce(table.content(), out.content_mut())?;
            Ok([length, states.old, states.new, rules.old, rules.new, rounds])
        })
    }

    fn report(&self, input: &mut Lent<u8>, out: &mut Lent<u8>, numbers: &mut Lent<usize>) -> u32 {
        answer(numbers, || {
            let lines = checker::report_on(input.content());
            let place = out.content_mut().get_mut(..lines.len()).ok_or(Refusal::ShortOutput)?;
            place.copy_from_slice(lines.as_bytes());
            Ok([lines.len()])
        })
    }
}

fn pair(table: &[u8], q: usize, r: usize) -> Result<Pair, Refusal> {
    let automaton = Automaton::read(table)?;
    let state = |number: usize| u16::try_from(number).map_err(|_| Refusal::UnknownState);
    Simulation::of(&automaton).pair(state(q)?, state(r)?)
}
