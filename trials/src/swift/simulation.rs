use checker::MAX_STATES;

use super::groups::ByTarget;
use super::set::Set;
use super::table::Rule;

/// The largest downward simulation on some states, and its rounds.
pub struct Simulation {
    /// For each state the set of those that simulate it.
    relation: [Set; MAX_STATES],
    pub rounds: usize,
}

impl Simulation {
    pub const NONE: Self = Self { relation: [Set::EMPTY; MAX_STATES], rounds: 0 };

    /// Finds the simulation on these states, from none.
    pub fn find(&mut self, rules: &ByTarget, states: Set) {
        let mut next = [Set::EMPTY; MAX_STATES];
        let mut changed = self.first_round(rules, states, &mut next);
        while !changed.is_empty() {
            self.rounds += 1;
            changed = self.round(rules, &changed, &mut next);
        }
    }

    /// From all pairs to those (q, r) where r has a rule of each symbol that q
    /// has; returns the states whose rows changed. `having` gets, for each
    /// symbol, the states that have a rule of it.
    fn first_round(&mut self, rules: &ByTarget, states: Set, having: &mut [Set]) -> Set {
        for rule in rules.all() {
            having[usize::from(rule.symbol)].insert(rule.target);
        }
        let mut changed = Set::EMPTY;
        for state in states {
            let symbols = rules.of(state).iter().map(|rule| usize::from(rule.symbol));
            let row = symbols.fold(states, |row, symbol| row.and(&having[symbol]));
            changed.insert_bit(state, (row != states).into());
            self.relation[usize::from(state)] = row;
        }
        changed
    }

    /// Makes the next rows from the whole of the relation, then puts those that
    /// changed into it; returns their states.
    fn round(&mut self, rules: &ByTarget, before: &Set, next: &mut [Set]) -> Set {
        let mut changed = Set::EMPTY;
        for state in touched_states(rules, before) {
            let row = self.narrowed(rules, before, state);
            changed.insert_bit(state, (row != *self.row(state)).into());
            next[usize::from(state)] = row;
        }
        for state in changed {
            self.relation[usize::from(state)] = next[usize::from(state)];
        }
        changed
    }

    /// The states of a row that have a match for each rule that a change
    /// touches.
    fn narrowed(&self, rules: &ByTarget, changed: &Set, state: u8) -> Set {
        let mut row = *self.row(state);
        for rule in rules.of(state).iter().filter(|rule| rule.names_any_of(changed)) {
            row.retain(|other| self.has_match(rule, rules.of(other)));
        }
        row
    }

    /// The states that simulate a state.
    pub fn row(&self, state: u8) -> &Set {
        &self.relation[usize::from(state)]
    }

    /// The rows of the states below `states`.
    pub fn rows(&self, states: usize) -> &[Set] {
        &self.relation[..states]
    }

    /// Whether one of the others matches a rule.
    #[inline(always)]
    pub fn has_match(&self, rule: &Rule, others: &[Rule]) -> bool {
        others.iter().any(|other| rule.symbol == other.symbol && self.covers(rule, other))
    }

    /// Whether each child of a rule is simulated by that of another rule in its
    /// place.
    #[inline(always)]
    pub fn covers(&self, rule: &Rule, other: &Rule) -> bool {
        rule.children().zip(other.children).all(|(child, by)| self.row(child).has(by))
    }
}

/// The targets of rules that name a changed state as a child.
fn touched_states(rules: &ByTarget, changed: &Set) -> Set {
    let touched = rules.all().iter().filter(|rule| rule.names_any_of(changed));
    touched.map(|rule| rule.target).collect()
}
