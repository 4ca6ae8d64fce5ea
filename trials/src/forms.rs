//! Many forms joined into one table, each with its own copies of the parts that
//! forms have in common.

use std::ops::Range;

use checker::{Automaton, MAX_RULES, MAX_STATES, Rule};

use crate::random::Random;

const DIGITS: Range<u16> = 0..10;
const LETTERS: Range<u16> = 10..16;
const TITLES: Range<u16> = 16..18;
const METHODS: Range<u16> = 18..22;
const VERDICTS: Range<u16> = 22..25;
const JOINTS: Range<u16> = 25..28;
const UNITS: Range<u16> = 28..30;
/// The empty list, text or word.
const NOTHING: u16 = 30;
/// Two digits.
const NUMBER: u16 = 31;
/// A day, a month and a year.
const DATE: u16 = 32;
/// A list, text or word, and one more behind it.
const MORE: u16 = 33;
const NAME: u16 = 34;
/// A method, a verdict, a date and a name.
const INSPECTION: u16 = 35;
/// A joint and its two inspections.
const WELD: u16 = 36;
/// A word, a number and a unit.
const ITEM: u16 = 37;
/// The tops of forms.
const NOTE: u16 = 38;
const ORDER: u16 = 39;
const CERTIFICATE: u16 = 40;
const LOG: u16 = 41;

/// The ranks of the symbols behind `NOTHING`.
const RANKS: [u8; 11] = [2, 3, 2, 2, 4, 3, 3, 2, 4, 4, 5];

/// Forms joined into one automaton.
pub struct Forms {
    pub automaton: Automaton,
    pub count: usize,
    /// A note's and a log's top, and the lists of welds.
    pub note: u16,
    pub log: u16,
    pub welds: Vec<u16>,
}

/// As many forms as have room for their rules, drawn from a seed.
pub fn joined(seed: u64) -> Forms {
    let mut random = Random::of_case(seed, 0);
    let mut joiner = Joiner::default();
    loop {
        let mut next = joiner.clone();
        next.add_form(&mut random);
        if next.states > MAX_STATES || next.rules.len() > MAX_RULES {
            return joiner.forms();
        }
        joiner = next;
    }
}

#[derive(Clone, Default)]
struct Joiner {
    states: usize,
    rules: Vec<Rule>,
    /// The top state of each form, with its symbol.
    tops: Vec<(u16, u16)>,
    welds: Vec<u16>,
}

impl Joiner {
    fn forms(self) -> Forms {
        let top = |symbol: u16| {
            let found = self.tops.iter().find(|&&(_, other)| other == symbol);
            found.expect("a form of each kind").0
        };
        let ranks = [vec![0; usize::from(NOTHING) + 1], RANKS.to_vec()].concat();
        let finals = self.tops.iter().map(|&(state, _)| state).collect();
        Forms {
            count: self.tops.len(),
            note: top(NOTE),
            log: top(LOG),
            automaton: Automaton { states: self.states, ranks, finals, rules: self.rules },
            welds: self.welds,
        }
    }

    /// A form, the first four each of another kind. One form in three has an old rule
    /// left, for words in place of the text; one in four a part that it does
    /// not use, and one in four a place for an annex that is never written.
    fn add_form(&mut self, random: &mut Random) {
        let kinds = [NOTE, ORDER, CERTIFICATE, LOG];
        let symbol = kinds.get(self.tops.len()).copied().unwrap_or_else(|| random.pick(&kinds));
        let date = self.date(random);
        let name = if symbol == NOTE { None } else { Some(self.name(random)) };
        let items = [ORDER, LOG].contains(&symbol).then(|| self.items());
        let welds = name.filter(|_| [CERTIFICATE, LOG].contains(&symbol));
        let welds = welds.map(|name| self.weld_list(random, date, name));
        let parts: Vec<u16> = [Some(date), name, items, welds].into_iter().flatten().collect();
        let text = self.list(LETTERS.chain(DIGITS));
        let top = self.rule(symbol, &[&parts[..], &[text]].concat());
        if random.one_in(3) {
            let words = self.list(LETTERS);
            self.rule_of(top, symbol, &[&parts[..], &[words]].concat());
        }
        if random.one_in(4) {
            self.name(random);
        }
        if random.one_in(4) {
            let annex = self.state();
            self.rule_of(annex, MORE, &[annex, text]);
            self.rule_of(top, symbol, &[&parts[..], &[annex]].concat());
        }
        self.tops.push((top, symbol));
    }

    /// A day, a month and a year, each with digits of its own. One date in four
    /// has a day of any two digits.
    fn date(&mut self, random: &mut Random) -> u16 {
        let first_of_day = if random.one_in(4) { DIGITS } else { 0..4 };
        let day = self.number(first_of_day);
        let month = self.number(0..2);
        let year = self.number(DIGITS);
        self.rule(DATE, &[day, month, year])
    }

    /// Two digits, the first of them one of these.
    fn number(&mut self, first: Range<u16>) -> u16 {
        let first = self.one_of(first);
        let second = self.one_of(DIGITS);
        self.rule(NUMBER, &[first, second])
    }

    /// A name of two words, or of a title and a word in two forms of three.
    fn name(&mut self, random: &mut Random) -> u16 {
        let word = self.list(LETTERS);
        let name = self.rule(NAME, &[word, word]);
        if !random.one_in(3) {
            let title = self.one_of(TITLES);
            self.rule_of(name, NAME, &[title, word]);
        }
        name
    }

    fn items(&mut self) -> u16 {
        let word = self.list(LETTERS);
        let amount = self.number(DIGITS);
        let unit = self.one_of(UNITS);
        let item = self.rule(ITEM, &[word, amount, unit]);
        self.list_of(item)
    }

    /// Welds, each inspected by eye and then by some of the other methods. The
    /// second inspection is passed, or repaired too in two forms of three.
    fn weld_list(&mut self, random: &mut Random, date: u16, name: u16) -> u16 {
        let joint = self.one_of(JOINTS);
        let (eye, verdict) = (self.one_of(METHODS.take(1)), self.one_of(VERDICTS));
        let first = self.rule(INSPECTION, &[eye, verdict, date, name]);
        let methods = random.between(2, 3);
        let method = self.one_of(METHODS.skip(1).take(methods));
        let verdicts = if random.one_in(3) { 1 } else { 2 };
        let verdict = self.one_of(VERDICTS.take(verdicts));
        let second = self.rule(INSPECTION, &[method, verdict, date, name]);
        let weld = self.rule(WELD, &[joint, first, second]);
        let welds = self.list_of(weld);
        self.welds.push(welds);
        welds
    }

    /// A list of such leaves.
    fn list(&mut self, leaves: impl IntoIterator<Item = u16>) -> u16 {
        let leaf = self.one_of(leaves);
        self.list_of(leaf)
    }

    fn list_of(&mut self, item: u16) -> u16 {
        let list = self.one_of([NOTHING]);
        self.rule_of(list, MORE, &[list, item]);
        list
    }

    /// A new state for these leaves.
    fn one_of(&mut self, leaves: impl IntoIterator<Item = u16>) -> u16 {
        let state = self.state();
        self.rules.extend(leaves.into_iter().map(|leaf| Rule::new(leaf, state, &[])));
        state
    }

    /// A new state with this rule.
    fn rule(&mut self, symbol: u16, children: &[u16]) -> u16 {
        let state = self.state();
        self.rule_of(state, symbol, children);
        state
    }

    fn rule_of(&mut self, target: u16, symbol: u16, children: &[u16]) {
        self.rules.push(Rule::new(symbol, target, children));
    }

    fn state(&mut self) -> u16 {
        self.states += 1;
        self.states as u16 - 1
    }
}

#[cfg(test)]
mod tests {
    use checker::{Answer, Counts, Reduction};

    use super::*;
    use crate::layout;
    use crate::seeded::tree;

    #[test]
    fn forms_are_accepted_as_they_are_and_reduced() {
        for seed in 0..10 {
            let Forms { automaton, note, log, welds, .. } = joined(seed);
            let reduced = Reduction::of(&automaton).automaton().clone();
            assert!(2 * reduced.states < automaton.states, "{seed}");
            let note = tree(&automaton, note, &[], 12, seed);
            let log = tree(&automaton, log, &welds, 16_000, seed);
            assert_eq!(note.len(), 12);
            assert!((15_900..=16_000).contains(&log.len()));
            for (table, form) in
                [(&automaton, &note), (&automaton, &log), (&reduced, &note), (&reduced, &log)]
            {
                let (answer, _) =
                    checker::check(&table.encode(), &layout::tree(form), Counts::default());
                assert_eq!(answer, Answer::Accepted, "{seed}");
            }
        }
    }
}
