//! Automata of a known shape.

use checker::{Automaton, Rule};

/// The symbols of a unary automaton.
pub const STEP: u16 = 0;
pub const LEAF: u16 = 1;

/// An automaton over a unary symbol and a leaf.
pub fn unary(states: usize, rules: impl IntoIterator<Item = Rule>) -> Automaton {
    Automaton { states, ranks: vec![1, 0], finals: vec![], rules: rules.into_iter().collect() }
}

/// A unary rule for each pair of a child and a target.
pub fn steps(pairs: &[(u16, u16)]) -> Vec<Rule> {
    pairs.iter().map(|&(from, to)| Rule::new(STEP, to, &[from])).collect()
}

pub fn leaves(states: &[u16]) -> Vec<Rule> {
    states.iter().map(|&state| Rule::new(LEAF, state, &[])).collect()
}

/// From each state of a cycle to the next.
pub fn cycle_steps(first: u16, length: u16) -> Vec<(u16, u16)> {
    (0..length).map(|at| (first + at, first + (at + 1) % length)).collect()
}

/// The bench table of document 01.
pub fn bench_table() -> Automaton {
    let rules = [
        Rule::new(0, 0, &[]),
        Rule::new(0, 1, &[]),
        Rule::new(0, 2, &[]),
        Rule::new(1, 2, &[]),
        Rule::new(2, 3, &[0, 2]),
        Rule::new(2, 3, &[1, 2]),
        Rule::new(2, 3, &[2, 2]),
        Rule::new(2, 4, &[4, 0]),
    ];
    Automaton { states: 5, ranks: vec![0, 0, 2], finals: vec![3], rules: rules.into() }
}

/// A chain from a leaf to the final state: each round tells one more state
/// apart.
pub fn chain(states: u16) -> Automaton {
    let pairs: Vec<(u16, u16)> = (1..states).map(|state| (state - 1, state)).collect();
    let mut chain = unary(states.into(), [steps(&pairs), leaves(&[0])].concat());
    chain.finals = vec![states - 1];
    chain
}

/// A cycle of `a` states with a leaf at its first, and one of `b` states with a
/// leaf at all but its first: whether a state of the first cycle is simulated by
/// one of the second is known only where both begin at once.
pub fn two_cycles(a: u16, b: u16) -> Automaton {
    let with_leaf: Vec<u16> = [0].into_iter().chain(a + 1..a + b).collect();
    let rules = [steps(&cycle_steps(0, a)), steps(&cycle_steps(a, b)), leaves(&with_leaf)];
    let mut cycles = unary((a + b).into(), rules.concat());
    cycles.finals = vec![a - 1, a];
    cycles
}
