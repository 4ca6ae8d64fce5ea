//! Tables and rules that more than one suite uses.

use crate::layout::{Rule, table};

/// A table of states and rules over one symbol of rank 1, and more rules for a
/// leaf, symbol 1.
pub fn unary(states: u16, steps: &[(u16, u16)], leaves: &[u16], accepting: &[u16]) -> Vec<u8> {
    let children: Vec<[u16; 1]> = steps.iter().map(|&(from, _)| [from]).collect();
    let steps = steps.iter().zip(&children).map(|(&(_, to), child)| (0, to, &child[..]));
    let leaves = leaves.iter().map(|&state| (1, state, &[][..]));
    let rules: Vec<Rule> = steps.chain(leaves).collect();
    table(states, &[1, 0], accepting, &rules)
}

/// From each state to the next.
pub fn forth(states: u16) -> Vec<(u16, u16)> {
    (1..states).map(|state| (state - 1, state)).collect()
}

/// From each state to the one before.
pub fn back(states: u16) -> Vec<(u16, u16)> {
    (1..states).map(|state| (state, state - 1)).collect()
}

/// A cycle of states from `first` on.
pub fn cycle(first: u16, length: u16) -> Vec<(u16, u16)> {
    (0..length).map(|i| (first + i, first + (i + 1) % length)).collect()
}

/// A cycle of `a` states and behind it one of `b`.
pub fn two_cycles(a: u16, b: u16, leaves: &[u16], accepting: &[u16]) -> Vec<u8> {
    unary(a + b, &[cycle(0, a), cycle(a, b)].concat(), leaves, accepting)
}

/// These rules behind those of two leaves, states 0 below 1.
pub fn over_leaves<'a>(rules: &[Rule<'a>]) -> Vec<Rule<'a>> {
    let leaves: [Rule; 3] = [(0, 0, &[]), (0, 1, &[]), (1, 1, &[])];
    [&leaves, rules].concat()
}
