use checker::{MAX_RULES, MAX_STATES, Refusal};

use super::groups::ByTarget;
use super::set::Set;
use super::simulation::Simulation;
use super::table::{COUNTS, FINALS, RANKS, RULE, Rule, Table};

/// A table while it is reduced, and then the reduced one. A group goes by its
/// smallest state until the states are numbered.
pub struct Reduction {
    states: Set,
    finals: Set,
    rules: [Rule; MAX_RULES],
    rule_count: usize,
    /// The rounds of the simulation on the states to which a tree belongs.
    pub rounds: usize,
}

impl Reduction {
    pub const NONE: Self = Self {
        states: Set::EMPTY,
        finals: Set::EMPTY,
        rules: [Rule::NONE; MAX_RULES],
        rule_count: 0,
        rounds: 0,
    };

    /// Takes the six steps of document 01, from nothing.
    pub fn find(&mut self, table: &Table) {
        self.start(table);
        self.drop_idle();
        let (mut rules, mut simulation) = (ByTarget::EMPTY, Simulation::NONE);
        rules.group(self.rules(), table.states);
        simulation.find(&rules, self.states);
        self.rounds = simulation.rounds;
        self.join(&simulation);
        rules.group(self.rules(), table.states);
        self.drop_outdone(&rules, &simulation);
        rules.group(self.rules(), table.states);
        self.keep_needed(&rules);
        self.number();
    }

    pub fn states(&self) -> usize {
        self.states.len()
    }

    pub fn rule_count(&self) -> usize {
        self.rule_count
    }

    fn start(&mut self, table: &Table) {
        self.states = Set::below(table.states);
        self.finals = table.finals;
        for (place, rule) in self.rules.iter_mut().zip(table.rules()) {
            *place = rule;
        }
        self.rule_count = table.rule_count;
    }

    fn rules(&self) -> impl Iterator<Item = Rule> + Clone {
        self.rules[..self.rule_count].iter().copied()
    }

    fn retain(&mut self, mut keep: impl FnMut(&Rule) -> bool) {
        let mut kept = 0;
        for at in 0..self.rule_count {
            if keep(&self.rules[at]) {
                self.rules[kept] = self.rules[at];
                kept += 1;
            }
        }
        self.rule_count = kept;
    }

    /// Step 1: drops the states to which no tree belongs, and the rules that
    /// name one.
    fn drop_idle(&mut self) {
        let states = self.inhabited();
        self.states = states;
        self.finals = self.finals.and(&states);
        self.retain(|rule| rule.children().all(|child| states.has(child)));
    }

    /// The states to which a tree belongs.
    fn inhabited(&self) -> Set {
        let mut states = Set::EMPTY;
        loop {
            let before = states;
            for rule in self.rules() {
                let ready = rule.children().fold(1, |ready, child| ready & states.bit(child));
                states.insert_bit(rule.target, ready);
            }
            if states == before {
                return states;
            }
        }
    }

    /// Step 3, but for equal rules: puts the smallest of those that simulate
    /// each other for each state.
    fn join(&mut self, simulation: &Simulation) {
        let mut names = [0; MAX_STATES];
        for state in self.states {
            let mut others = simulation.row(state).into_iter();
            let smallest = others.find(|&other| simulation.row(other).has(state));
            names[usize::from(state)] = smallest.unwrap_or(state);
        }
        self.rename(&names);
    }

    /// Gives the states, the final ones and those in rules new names.
    fn rename(&mut self, names: &[u8; MAX_STATES]) {
        for set in [&mut self.states, &mut self.finals] {
            *set = set.into_iter().map(|state| names[usize::from(state)]).collect();
        }
        for rule in &mut self.rules[..self.rule_count] {
            rule.rename(names);
        }
    }

    /// Step 4, and equal rules of step 3: drops each rule whose children are
    /// simulated by those of another of its symbol and target, and each that
    /// stood before.
    fn drop_outdone(&mut self, rules: &ByTarget, simulation: &Simulation) {
        let mut seen = [0_u16; MAX_STATES];
        self.retain(|rule| {
            let others = rules.of(rule.target);
            let place = &mut seen[usize::from(rule.target)];
            let stood = others[..usize::from(*place)].contains(rule);
            *place += 1;
            let outdoes = |other: &Rule| {
                rule.symbol == other.symbol && rule != other && simulation.covers(rule, other)
            };
            !stood && !others.iter().any(outdoes)
        });
    }

    /// Step 5: keeps the final states and, repeatedly, the children of rules
    /// whose target is kept.
    fn keep_needed(&mut self, rules: &ByTarget) {
        let mut kept = self.finals;
        let mut waiting = kept;
        while let Some(state) = waiting.into_iter().next() {
            waiting.remove(state);
            for child in rules.of(state).iter().flat_map(Rule::children) {
                waiting.insert_bit(child, 1 - kept.bit(child));
                kept.insert(child);
            }
        }
        self.states = kept;
        self.retain(|rule| kept.has(rule.target));
    }

    /// Numbers the states in order, for step 6.
    fn number(&mut self) {
        let mut names = [0; MAX_STATES];
        for (number, state) in (0..).zip(self.states) {
            names[usize::from(state)] = number;
        }
        self.rename(&names);
    }

    /// Writes the table of numbered states at the start of `out` and returns
    /// its length.
    pub fn write(&self, ranks: &[u8], out: &mut [u8]) -> Result<usize, Refusal> {
        let rules: usize = self.rules().map(|rule| 10 + 2 * rule.rank()).sum();
        let length = 24 + ranks.len() + 2 * self.finals.len() + rules;
        let rest = out.get_mut(..length).ok_or(Refusal::ShortOutput)?;

        let counts = [self.states(), ranks.len(), self.rule_count];
        let rest = put_words(put_head(rest, COUNTS, 6), counts.map(|count| count as u16));
        let rest = put(put_head(rest, RANKS, ranks.len()), ranks);
        let rest = put_head(rest, FINALS, 2 * self.finals.len());
        let mut rest = put_words(rest, self.finals.into_iter().map(u16::from));
        for rule in self.rules() {
            rest = put_head(rest, RULE, 4 + 2 * rule.rank());
            rest = put_words(rest, [rule.symbol, rule.target].map(u16::from));
            rest = put_words(rest, rule.children().map(u16::from));
        }
        Ok(length)
    }
}

/// Puts a record's length and kind at the start of `out` and returns the rest.
fn put_head(out: &mut [u8], kind: u16, body: usize) -> &mut [u8] {
    put_words(put(out, &(2 + body as u32).to_le_bytes()), [kind])
}

fn put_words(out: &mut [u8], words: impl IntoIterator<Item = u16>) -> &mut [u8] {
    words.into_iter().fold(out, |out, word| put(out, &word.to_le_bytes()))
}

fn put<'a>(out: &'a mut [u8], bytes: &[u8]) -> &'a mut [u8] {
    let (place, rest) = out.split_at_mut(bytes.len());
    place.copy_from_slice(bytes);
    rest
}
