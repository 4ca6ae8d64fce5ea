use crate::{Automaton, BySymbol, MAX_STATES, Refusal, Rule, StateSet};

/// The largest downward simulation on the states of an automaton.
#[derive(Clone, Debug)]
pub struct Simulation<'a> {
    automaton: &'a Automaton,
    relation: Vec<StateSet>,
    rounds: usize,
}

/// What a pair query says.
#[derive(Clone, Copy, Debug, PartialEq, Eq)]
pub enum Pair {
    Yes,
    /// The first rule of the left state that no rule of the right one matches.
    Rule(usize),
}

impl<'a> Simulation<'a> {
    pub fn of(automaton: &'a Automaton) -> Self {
        let rules = BySymbol::new(automaton);
        let states = automaton.states;
        let mut relation = vec![StateSet::below(states); states];
        let mut next = relation.clone();
        let mut rounds = 0;
        loop {
            refine(&rules, &relation, &mut next);
            if next == relation {
                return Self { automaton, relation, rounds };
            }
            rounds += 1;
            relation.copy_from_slice(&next);
        }
    }

    /// The number of rounds after which the relation stays.
    pub const fn rounds(&self) -> usize {
        self.rounds
    }

    /// The number of pairs in the relation.
    pub fn pairs(&self) -> usize {
        self.relation.iter().map(StateSet::len).sum()
    }

    /// Whether `right` simulates `left`. Both must be states.
    pub fn holds(&self, left: u16, right: u16) -> bool {
        self.relation[usize::from(left)].contains(right)
    }

    /// Whether each child of `rule` is simulated by that of `other` in its
    /// place.
    pub fn covers(&self, rule: &Rule, other: &Rule) -> bool {
        covers(&self.relation, rule, other)
    }

    /// Writes a row of bits for each state at the start of `out`. Bytes behind
    /// them stay; if `out` is too short, all stay.
    pub fn write(&self, out: &mut [u8]) -> Result<(), Refusal> {
        let (places, _) = out.as_chunks_mut::<{ MAX_STATES / 8 }>();
        let places = places.get_mut(..self.relation.len()).ok_or(Refusal::ShortOutput)?;
        for (place, row) in places.iter_mut().zip(&self.relation) {
            *place = row.to_bytes();
        }
        Ok(())
    }

    /// Whether `right` simulates `left`, or else which rule shows that it
    /// doesn't.
    pub fn pair(&self, left: u16, right: u16) -> Result<Pair, Refusal> {
        let states = self.automaton.states;
        if usize::from(left) >= states || usize::from(right) >= states {
            return Err(Refusal::UnknownState);
        }
        if self.holds(left, right) {
            return Ok(Pair::Yes);
        }
        let rules = &self.automaton.rules;
        let matched = |rule: &Rule| {
            let same = |other: &&Rule| other.target == right && other.symbol == rule.symbol;
            rules.iter().filter(same).any(|other| self.covers(rule, other))
        };
        let first = rules.iter().position(|rule| rule.target == left && !matched(rule));
        Ok(Pair::Rule(first.expect("a pair outside the relation has such a rule")))
    }
}

/// Narrows each row of `next`, which is `relation` at first, to the states
/// that match all rules of the row's state under `relation`.
fn refine(rules: &BySymbol, relation: &[StateSet], next: &mut [StateSet]) {
    for group in rules.groups() {
        for rule in group {
            let row = &mut next[usize::from(rule.target)];
            let mut unmatched = *row;
            for other in group {
                if unmatched.contains(other.target) && covers(relation, rule, other) {
                    unmatched.remove(other.target);
                }
            }
            *row = row.difference(&unmatched);
        }
    }
}

/// Whether each child of `rule` is paired with that of `other` in its place.
fn covers(relation: &[StateSet], rule: &Rule, other: &Rule) -> bool {
    let mut children = rule.children().iter().zip(other.children());
    children.all(|(&child, &by)| relation[usize::from(child)].contains(by))
}
