use checker::{Automaton, Rule};

use super::{any_rule, stirred, with_finals};
use crate::random::Random;
use crate::shapes::{LEAF, STEP, cycle_steps, leaves, steps, unary};

/// A chain, forth or back, of unary rules or of binary ones whose second child
/// is where it begins; with some more leaves and rules.
pub fn chain(random: &mut Random) -> Automaton {
    let states = if random.one_in(80) { random.between(41, 256) } else { random.between(2, 40) };
    let last = states as u16 - 1;
    let mut chain: Vec<(u16, u16)> = (0..last).map(|state| (state, state + 1)).collect();
    if random.one_in(2) {
        chain.iter_mut().for_each(|(from, to)| (*from, *to) = (last - *from, last - *to));
    }
    let first = chain[0].0;
    let mut automaton = if random.one_in(3) {
        let rules = chain.iter().map(|&(from, to)| Rule::new(STEP, to, &[from, first]));
        Automaton { states, ranks: vec![2, 0], finals: vec![], rules: rules.collect() }
    } else {
        unary(states, steps(&chain))
    };
    automaton.rules.extend(leaves(&[first]));
    disturb(random, &mut automaton);
    let Automaton { ranks, rules, .. } = automaton;
    let automaton = with_finals(random, states, ranks, rules);
    stirred(random, automaton)
}

/// Up to three more rules, one of them a leaf, and one less now and then.
fn disturb(random: &mut Random, automaton: &mut Automaton) {
    for _ in 0..random.below(3) {
        automaton.rules.push(any_rule(random, &automaton.ranks, automaton.states));
    }
    if random.one_in(2) {
        let state = random.below(automaton.states) as u16;
        automaton.rules.push(Rule::new(LEAF, state, &[]));
    }
    if random.one_in(8) {
        automaton.rules.swap_remove(random.below(automaton.rules.len()));
    }
}

/// Two or three cycles over one unary symbol.
pub fn cycles(random: &mut Random) -> Automaton {
    let (shortest, longest) = if random.one_in(200) { (20, 36) } else { (1, 12) };
    let mut states = 0;
    let mut rules = Vec::new();
    let mut with_leaf = Vec::new();
    for _ in 0..random.between(2, 3) {
        let length = random.between(shortest, longest) as u16;
        rules.extend(steps(&cycle_steps(states, length)));
        with_leaf.extend(leaves_of_cycle(random, states, length));
        states += length;
    }
    rules.extend(leaves(&with_leaf));
    let Automaton { ranks, rules, .. } = unary(states.into(), rules);
    let automaton = with_finals(random, states.into(), ranks, rules);
    stirred(random, automaton)
}

/// A leaf where the cycle begins, everywhere else, at any places, or nowhere.
fn leaves_of_cycle(random: &mut Random, first: u16, length: u16) -> Vec<u16> {
    match random.below(8) {
        0..3 => vec![first],
        3..6 => (first + 1..first + length).collect(),
        6 => (first..first + length).filter(|_| random.one_in(2)).collect(),
        _ => vec![],
    }
}
