//! Automata and trees that are drawn from a seed.

use checker::{Automaton, Rule};

use crate::growth::Growth;
use crate::random::Random;

/// The counts of an automaton whose symbols are leaves at first, and then
/// symbols of one rank.
#[derive(Clone, Copy, Debug)]
pub struct Shape {
    pub states: usize,
    pub rules: usize,
    pub leaves: usize,
    pub inners: usize,
    pub rank: usize,
}

impl Shape {
    /// A leaf for each state, and other rules with any children, as many for
    /// each state.
    pub fn sparse(self, seed: u64) -> Automaton {
        let random = &mut Random::of_case(seed, 0);
        let leaf = |state: usize| Rule::new(random.below(self.leaves) as u16, state as u16, &[]);
        let mut rules: Vec<Rule> = (0..self.states).map(leaf).collect();
        while rules.len() < self.rules {
            let target = rules.len() % self.states;
            let symbol = self.leaves + random.below(self.inners);
            let children: Vec<u16> =
                (0..self.rank).map(|_| random.below(self.states) as u16).collect();
            rules.push(Rule::new(symbol as u16, target as u16, &children));
        }
        self.automaton(random, rules)
    }

    /// Each leaf for three states of four and for the first eighth of all, which
    /// most of the states in other rules are: about half of a symbol's rules or
    /// more fit a node.
    pub fn dense(self, seed: u64) -> Automaton {
        let random = &mut Random::of_case(seed, 0);
        let mut rules = Vec::new();
        for leaf in 0..self.leaves as u16 {
            let first = self.states as u16 / 8;
            let states = (0..self.states as u16).filter(|&q| q < first || !random.one_in(4));
            rules.extend(states.map(|state| Rule::new(leaf, state, &[])));
        }
        while rules.len() < self.rules {
            let symbol = self.leaves + rules.len() % self.inners;
            let target = self.frequent(random, 5);
            let children: Vec<u16> = (0..self.rank).map(|_| self.frequent(random, 3)).collect();
            rules.push(Rule::new(symbol as u16, target, &children));
        }
        self.automaton(random, rules)
    }

    /// One of the first eighth of the states, and any state one time out of
    /// `times`.
    fn frequent(self, random: &mut Random, times: usize) -> u16 {
        let any = random.one_in(times);
        random.below(if any { self.states } else { self.states / 8 }) as u16
    }

    fn automaton(self, random: &mut Random, mut rules: Vec<Rule>) -> Automaton {
        random.shuffle(&mut rules);
        let inners = vec![self.rank as u8; self.inners];
        let ranks = [vec![0; self.leaves], inners].concat();
        let finals = (0..self.states as u16).step_by(8).collect();
        Automaton { states: self.states, ranks, finals, rules }
    }
}

/// The symbols of a tree of about so many nodes that belongs to a state. Those
/// of its parts that belong to a greedy state are the largest.
pub fn tree(
    automaton: &Automaton,
    state: u16,
    greedy: &[u16],
    nodes: usize,
    seed: u64,
) -> Vec<u16> {
    let random = &mut Random::of_case(seed, nodes as u64);
    Growth::new(automaton, greedy).tree(random, state, nodes)
}

#[cfg(test)]
mod tests {
    use checker::{Answer, Counts};

    use super::*;
    use crate::layout;

    fn accepts(automaton: &Automaton, symbols: &[u16]) -> bool {
        let (answer, _) =
            checker::check(&automaton.encode(), &layout::tree(symbols), Counts::default());
        answer == Answer::Accepted
    }

    #[test]
    fn automata_have_the_counts_that_are_asked_for() {
        let shape = Shape { states: 256, rules: 1_024, leaves: 2, inners: 4, rank: 2 };
        for automaton in [shape.sparse(1), shape.dense(1)] {
            assert_eq!((automaton.states, automaton.rules.len()), (256, 1_024));
            assert_eq!(automaton.ranks, [0, 0, 2, 2, 2, 2]);
            assert!(Automaton::read(&automaton.encode()).is_ok());
        }
    }

    #[test]
    fn trees_belong_to_the_state() {
        for rank in [2, 3, 8] {
            let shape = Shape { states: 64, rules: 256, leaves: 2, inners: 3, rank };
            for automaton in [shape.sparse(1), shape.dense(1)] {
                for nodes in [1, rank + 1, 1_000, 16_000] {
                    let symbols = tree(&automaton, 0, &[], nodes, 1);
                    assert!(symbols.len() <= nodes && nodes < symbols.len() + rank);
                    assert!(accepts(&automaton, &symbols));
                }
            }
        }
    }
}
