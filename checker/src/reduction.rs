use std::collections::HashSet;

use crate::{Automaton, BySymbol, MAX_STATES, Refusal, Rule, Simulation, StateSet};

/// An automaton reduced.
#[derive(Clone, Debug)]
pub struct Reduction {
    automaton: Automaton,
    old_states: usize,
    old_rules: usize,
    rounds: usize,
}

/// What reducing a table says.
#[derive(Clone, Copy, Debug, PartialEq, Eq)]
pub struct Reduced {
    /// The number of bytes of the reduced table.
    pub length: usize,
    pub states: Change,
    pub rules: Change,
    /// The rounds of the simulation on the states to which a tree belongs.
    pub rounds: usize,
}

/// A number before and after.
#[derive(Clone, Copy, Debug, PartialEq, Eq)]
pub struct Change {
    pub old: usize,
    pub new: usize,
}

/// Writes the reduction of a table at the start of `out`. Bytes behind it
/// stay; after a refusal all stay.
pub fn reduce(table: &[u8], out: &mut [u8]) -> Result<Reduced, Refusal> {
    Reduction::of(&Automaton::read(table)?).write(out)
}

impl Reduction {
    /// Takes the six steps of document 01. A group goes by its smallest state
    /// until the last.
    pub fn of(automaton: &Automaton) -> Self {
        let live = restrict(automaton, &inhabited(automaton));
        let simulation = Simulation::of(&live);
        let mut joined = join(&live, &simulation);
        drop_outdone(&mut joined, &simulation);
        Self {
            automaton: restrict(&joined, &needed(&joined)),
            old_states: automaton.states,
            old_rules: automaton.rules.len(),
            rounds: simulation.rounds(),
        }
    }

    pub const fn automaton(&self) -> &Automaton {
        &self.automaton
    }

    /// The rounds of the simulation on the states to which a tree belongs.
    pub const fn rounds(&self) -> usize {
        self.rounds
    }

    /// Writes the reduced table at the start of `out`. Bytes behind it stay;
    /// if `out` is too short, all stay.
    pub fn write(&self, out: &mut [u8]) -> Result<Reduced, Refusal> {
        let Self { automaton, old_states, old_rules, rounds } = self;
        Ok(Reduced {
            length: automaton.write(out)?,
            states: Change { old: *old_states, new: automaton.states },
            rules: Change { old: *old_rules, new: automaton.rules.len() },
            rounds: *rounds,
        })
    }
}

/// The states to which a tree belongs.
fn inhabited(automaton: &Automaton) -> StateSet {
    let mut states = StateSet::EMPTY;
    let mut waiting: Vec<&Rule> = automaton.rules.iter().collect();
    loop {
        let before = waiting.len();
        waiting.retain(|rule| {
            let ready = rule.children().iter().all(|&child| states.contains(child));
            if ready {
                states.insert(rule.target);
            }
            !ready
        });
        if waiting.len() == before {
            return states;
        }
    }
}

/// The final states and, repeatedly, the children of rules whose target is
/// among them.
fn needed(automaton: &Automaton) -> StateSet {
    let mut states: StateSet = automaton.finals.iter().copied().collect();
    let mut waiting: Vec<&Rule> = automaton.rules.iter().collect();
    loop {
        let before = waiting.len();
        waiting.retain(|rule| {
            let reached = states.contains(rule.target);
            if reached {
                for &child in rule.children() {
                    states.insert(child);
                }
            }
            !reached
        });
        if waiting.len() == before {
            return states;
        }
    }
}

/// The automaton with these states alone, numbered in order. A rule that names
/// another is dropped.
fn restrict(automaton: &Automaton, kept: &StateSet) -> Automaton {
    let mut numbers = [0; MAX_STATES];
    let mut states = 0;
    for (state, number) in (0..).zip(&mut numbers[..automaton.states]) {
        if kept.contains(state) {
            *number = states;
            states += 1;
        }
    }
    let number = |state: u16| numbers[usize::from(state)];
    let finals = automaton.finals.iter().filter(|&&state| kept.contains(state));
    let rules = automaton.rules.iter().filter(|rule| rule.states().all(|q| kept.contains(q)));
    Automaton {
        states: usize::from(states),
        ranks: automaton.ranks.clone(),
        finals: finals.map(|&state| number(state)).collect(),
        rules: rules.map(|rule| rule.renamed(number)).collect(),
    }
}

/// Puts the smallest of those that simulate each other for each state. Of
/// equal rules the first stays.
fn join(automaton: &Automaton, simulation: &Simulation) -> Automaton {
    let mut smallest = [0; MAX_STATES];
    for (state, place) in (0..).zip(&mut smallest[..automaton.states]) {
        let same = |&other: &u16| simulation.holds(state, other) && simulation.holds(other, state);
        *place = (0..state).find(same).unwrap_or(state);
    }
    let group = |state: u16| smallest[usize::from(state)];

    let mut finals: Vec<u16> = automaton.finals.iter().map(|&state| group(state)).collect();
    finals.sort_unstable();
    finals.dedup();

    let mut seen = HashSet::with_capacity(automaton.rules.len());
    let rules = automaton.rules.iter().map(|rule| rule.renamed(group));
    Automaton {
        states: automaton.states,
        ranks: automaton.ranks.clone(),
        finals,
        rules: rules.filter(|&rule| seen.insert(rule)).collect(),
    }
}

/// Drops each rule whose children are simulated by other children of a rule of
/// the same symbol and target.
fn drop_outdone(automaton: &mut Automaton, simulation: &Simulation) {
    let all = BySymbol::new(automaton);
    automaton.rules.retain(|rule| {
        let outdoes = |other: &Rule| {
            other.target == rule.target && other != rule && simulation.covers(rule, other)
        };
        !all.rules(rule.symbol).iter().any(outdoes)
    });
}
