use std::fmt;

use crate::library::NO;
use crate::{Call, Family};

const ANSWERS: usize = NO as usize + 1;

/// Where the classes of rounds begin.
const ROUNDS: [usize; 6] = [0, 1, 2, 10, 100, 1000];

/// What the cases reached.
#[derive(Clone, Debug)]
pub struct Tally {
    pub cases: u64,
    pub calls: u64,
    families: [u64; Family::ALL.len()],
    answers: [[u64; ANSWERS]; Call::NAMES.len()],
    /// How often a check named a subtree that is smaller than the tree.
    pub smaller_subtrees: u64,
    /// How often a check named the whole tree.
    pub whole_trees: u64,
    /// How often a check with the reduced table named another subtree.
    pub other_subtrees: u64,
    reduced: u64,
    shorter: u64,
    fewer_states: u64,
    fewer_rules: u64,
    stateless: u64,
    rounds: [u64; ROUNDS.len()],
}

impl Default for Tally {
    fn default() -> Self {
        Self {
            cases: 0,
            calls: 0,
            families: [0; _],
            answers: [[0; _]; _],
            smaller_subtrees: 0,
            whole_trees: 0,
            other_subtrees: 0,
            reduced: 0,
            shorter: 0,
            fewer_states: 0,
            fewer_rules: 0,
            stateless: 0,
            rounds: [0; _],
        }
    }
}

impl Tally {
    pub fn case(&mut self, family: Family) {
        self.cases += 1;
        self.families[family as usize] += 1;
    }

    pub fn call(&mut self, call: &Call, answer: u32) {
        self.calls += 1;
        self.answers[call.index()][answer as usize] += 1;
    }

    /// Counts a tree of so many nodes that was not accepted, with the numbers of
    /// the checks on the table and on the reduced one.
    pub fn subtree(&mut self, nodes: usize, numbers: &[usize], on_reduced: &[usize]) {
        let (&[node, size, ..], &[other_node, other_size, ..]) = (numbers, on_reduced) else {
            return;
        };
        self.smaller_subtrees += u64::from(size < nodes);
        self.whole_trees += u64::from(size == nodes);
        self.other_subtrees += u64::from((node, size) != (other_node, other_size));
    }

    /// Counts a table that was reduced, with the numbers of the call.
    pub fn reduction(&mut self, length: usize, numbers: &[usize]) {
        let &[new_length, old_states, new_states, old_rules, new_rules, rounds] = numbers else {
            return;
        };
        self.reduced += 1;
        self.shorter += u64::from(new_length < length);
        self.fewer_states += u64::from(new_states < old_states);
        self.fewer_rules += u64::from(new_rules < old_rules);
        self.stateless += u64::from(new_states == 0);
        let class = ROUNDS.iter().rposition(|&from| from <= rounds);
        self.rounds[class.expect("the first class begins at 0")] += 1;
    }

    /// How often a call answered this.
    pub fn answered(&self, call: &str, answer: u32) -> u64 {
        let index = Call::NAMES.iter().position(|&name| name == call);
        self.answers[index.expect("the name of a call")][answer as usize]
    }
}

impl fmt::Display for Tally {
    fn fmt(&self, f: &mut fmt::Formatter) -> fmt::Result {
        let families = Family::ALL.iter().zip(self.families);
        let families = families.map(|(family, count)| format!("{}: {count}", family.name()));
        writeln!(f, "families       {}", families.collect::<Vec<_>>().join(", "))?;
        for (name, answers) in Call::NAMES.iter().zip(self.answers) {
            let answers = answers.iter().enumerate().filter(|&(_, &count)| count > 0);
            let answers = answers.map(|(answer, count)| format!("{answer}: {count}"));
            writeln!(f, "{name:<14} {}", answers.collect::<Vec<_>>().join(", "))?;
        }
        writeln!(
            f,
            "subtrees       {} smaller than the tree, {} the whole tree; {} others of the reduced table",
            self.smaller_subtrees, self.whole_trees, self.other_subtrees
        )?;
        writeln!(
            f,
            "reduced        {} tables: {} shorter, {} of fewer states, {} of fewer rules, {} of no state",
            self.reduced, self.shorter, self.fewer_states, self.fewer_rules, self.stateless
        )?;
        let rounds = ROUNDS.iter().zip(self.rounds);
        let rounds = rounds.map(|(from, count)| format!("from {from}: {count}"));
        writeln!(f, "rounds         {}", rounds.collect::<Vec<_>>().join(", "))
    }
}
