//! The calls in plain Rust, written for speed within the memory that the proved
//! library has: no heap, rules in bytes, a relation in four words to a state.

mod check;
mod groups;
mod reduction;
mod report;
mod set;
mod simulation;
mod table;

use checker::{Refusal, Subtree};

use crate::library::{NO, OK, SHORT, answer, number};
use crate::{CheckArrays, Lent, Library};
use groups::ByTarget;
use reduction::Reduction;
use report::report;
use set::Set;
use simulation::Simulation;
use table::Table;

/// Plain Rust that the proved library's times are held against.
#[derive(Clone, Copy, Debug)]
pub struct Swift;

impl Library for Swift {
    fn judge(&self, table: &mut Lent<u8>, numbers: &mut Lent<usize>) -> u32 {
        answer(numbers, || {
            let table = Table::read(table.content())?;
            Ok([table.states, table.ranks.len(), table.rule_count])
        })
    }

    fn check(&self, table: &mut Lent<u8>, tree: &mut Lent<u8>, arrays: CheckArrays<'_>) -> u32 {
        let CheckArrays { counts, numbers } = arrays;
        let Some([accepted, rejected, refused]) = counts.content_mut().first_chunk_mut() else {
            return SHORT;
        };
        let Some(place) = numbers.content_mut().first_chunk_mut() else { return SHORT };
        let (count, answer) = match check::rejected_subtree(table.content(), tree.content()) {
            Ok(None) => (accepted, OK),
            Ok(Some(Subtree { node, size })) => {
                *place = [node, size];
                (rejected, NO)
            }
            Err(refusal) => (refused, number(refusal)),
        };
        *count = count.saturating_add(1);
        answer
    }

    fn relate(&self, table: &mut Lent<u8>, out: &mut Lent<u8>, numbers: &mut Lent<usize>) -> u32 {
        answer(numbers, || relate(table.content(), out.content_mut()))
    }

    fn compare(&self, table: &mut Lent<u8>, q: usize, r: usize, numbers: &mut Lent<usize>) -> u32 {
        let Some(place) = numbers.content_mut().first_mut() else { return SHORT };
        match unmatched_rule(table.content(), q, r) {
            Ok(None) => OK,
            Ok(Some(rule)) => {
                *place = rule;
                NO
            }
            Err(refusal) => number(refusal),
        }
    }

    fn reduce(&self, table: &mut Lent<u8>, out: &mut Lent<u8>, numbers: &mut Lent<usize>) -> u32 {
        answer(numbers, || reduce(table.content(), out.content_mut()))
    }

    fn report(&self, input: &mut Lent<u8>, out: &mut Lent<u8>, numbers: &mut Lent<usize>) -> u32 {
        answer(numbers, || Ok([report(input.content(), out.content_mut())?]))
    }
}

/// Writes a row of bits for each state, and returns the rounds and the number
/// of pairs.
fn relate(table: &[u8], out: &mut [u8]) -> Result<[usize; 2], Refusal> {
    let table = Table::read(table)?;
    let (places, _) = out.as_chunks_mut();
    let places = places.get_mut(..table.states).ok_or(Refusal::ShortOutput)?;
    let (mut rules, mut simulation) = (ByTarget::EMPTY, Simulation::NONE);
    rules.group(table.rules(), table.states);
    simulation.find(&rules, Set::below(table.states));
    let rows = simulation.rows(table.states);
    for (place, row) in places.iter_mut().zip(rows) {
        *place = row.to_bytes();
    }
    Ok([simulation.rounds, rows.iter().map(Set::len).sum()])
}

/// The first rule of state `q` that no rule of state `r` matches, if there is
/// one.
fn unmatched_rule(table: &[u8], q: usize, r: usize) -> Result<Option<usize>, Refusal> {
    let table = Table::read(table)?;
    if q >= table.states || r >= table.states {
        return Err(Refusal::UnknownState);
    }
    let (mut rules, mut simulation) = (ByTarget::EMPTY, Simulation::NONE);
    rules.group(table.rules(), table.states);
    simulation.find(&rules, Set::below(table.states));
    let (q, others) = (q as u8, rules.of(r as u8));
    let mut rules = table.rules();
    Ok(rules.position(|rule| rule.target == q && !simulation.has_match(&rule, others)))
}

/// Writes the reduced table, and returns its length, the old and new numbers of
/// states and rules, and the rounds.
fn reduce(table: &[u8], out: &mut [u8]) -> Result<[usize; 6], Refusal> {
    let table = Table::read(table)?;
    let mut reduction = Reduction::NONE;
    reduction.find(&table);
    let length = reduction.write(table.ranks, out)?;
    let states = [table.states, reduction.states()];
    let rules = [table.rule_count, reduction.rule_count()];
    Ok([length, states[0], states[1], rules[0], rules[1], reduction.rounds])
}
