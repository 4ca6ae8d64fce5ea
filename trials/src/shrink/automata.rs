//! Changes to the automaton of a case whose table is well-formed.

use std::ops::Range;

use checker::{Automaton, Rule};

use super::trees;
use crate::{Call, Case};

pub fn read(case: &Case) -> Automaton {
    Automaton::read(&case.table).expect("a well-formed table")
}

pub fn put_rules(case: &mut Case, rules: &[Rule]) {
    case.table = Automaton { rules: rules.to_vec(), ..read(case) }.encode();
}

pub fn put_finals(case: &mut Case, finals: &[u16]) {
    case.table = Automaton { finals: finals.to_vec(), ..read(case) }.encode();
}

/// Leaves out a state with its rules; the states behind it are renumbered.
pub fn drop_state(case: &mut Case, state: u16) {
    let mut automaton = read(case);
    automaton.finals.retain(|&other| other != state);
    automaton.rules.retain(|rule| rule.target != state && !rule.children().contains(&state));
    rename(case, automaton, |other| other - u16::from(other > state));
}

/// Puts a lower state in the place of a state.
pub fn join_states(case: &mut Case, state: u16, lower: u16) {
    let automaton = read(case);
    rename(case, automaton, |other| match other {
        _ if other == state => lower,
        _ => other - u16::from(other > state),
    });
}

/// Puts an automaton of one state less into the case, with new names for its
/// states and for those of the pairs.
fn rename(case: &mut Case, automaton: Automaton, name: impl Fn(u16) -> u16) {
    let Automaton { states, ranks, finals, rules } = automaton;
    let mut finals: Vec<u16> = finals.into_iter().map(&name).collect();
    finals.sort_unstable();
    finals.dedup();
    let rename = |rule: &Rule| {
        let children: Vec<u16> = rule.children().iter().map(|&child| name(child)).collect();
        Rule::new(rule.symbol, name(rule.target), &children)
    };
    let rules = rules.iter().map(rename).collect();
    case.table = Automaton { states: states - 1, ranks, finals, rules }.encode();
    for call in &mut case.calls {
        if let Call::Compare { q, r, .. } = call {
            for state in [q, r].into_iter().filter(|state| **state < states) {
                *state = name(*state as u16).into();
            }
        }
    }
}

/// Leaves out a symbol with its rules; the symbols behind it are renumbered, in
/// the trees too.
pub fn drop_symbol(case: &mut Case, symbol: u16) {
    let mut automaton = read(case);
    automaton.ranks.remove(symbol.into());
    automaton.rules.retain(|rule| rule.symbol != symbol);
    for rule in &mut automaton.rules {
        rule.symbol -= u16::from(rule.symbol > symbol);
    }
    case.table = automaton.encode();
    for at in 0..case.calls.len() {
        if let Some(mut symbols) = trees::symbols(case, at) {
            symbols.iter_mut().for_each(|node| *node -= u16::from(*node > symbol));
            trees::put(case, at, &symbols);
        }
    }
}

/// Leaves out the last child of each rule of a symbol.
pub fn drop_child(case: &mut Case, symbol: u16) {
    let mut automaton = read(case);
    let rank = &mut automaton.ranks[usize::from(symbol)];
    *rank = rank.saturating_sub(1);
    let rank = usize::from(*rank);
    for rule in automaton.rules.iter_mut().filter(|rule| rule.symbol == symbol) {
        *rule = Rule::new(symbol, rule.target, &rule.children()[..rank]);
    }
    case.table = automaton.encode();
}

/// The first three records of a table and these others, with as many rules less
/// in its first record.
pub fn with_records(table: &[u8], others: &[Range<usize>], dropped: usize) -> Vec<u8> {
    let all = crate::damage::spans(table);
    let mut bytes = table[..all[2].end].to_vec();
    for span in others {
        bytes.extend_from_slice(&table[span.clone()]);
    }
    bytes.extend_from_slice(&table[all[all.len() - 1].end..]);
    if let Some(field) = bytes.get_mut(10..12) {
        let rules = u16::from_le_bytes([field[0], field[1]]);
        field.copy_from_slice(&rules.saturating_sub(dropped as u16).to_le_bytes());
    }
    bytes
}
