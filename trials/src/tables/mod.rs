mod copies;
mod limits;
mod records;
mod small;
mod unary;

use checker::{Automaton, Rule};

use crate::damage::damage;
use crate::random::Random;

/// How a table is drawn.
#[derive(Clone, Copy, Debug, PartialEq, Eq)]
pub enum Family {
    /// Few states, many rules, many of them repeated.
    Dense,
    /// Up to 30 states, few rules to each.
    Sparse,
    /// Rules only from lower states to higher ones.
    Layered,
    /// Several copies of each state of a small automaton.
    Copies,
    /// States that no tree reaches, and states that no accepted tree needs.
    Idle,
    /// Long chains of unary or binary rules.
    Chain,
    /// Cycles over one unary symbol.
    Cycles,
    /// Ranks 5 to 8.
    Wide,
    /// At most 2 states and 2 symbols.
    Tiny,
    /// A table of another family with a few changes to its bytes.
    Damaged,
    /// Records of random bodies, and random bytes.
    Records,
    /// Trees at the limits of nodes and of waiting trees.
    Trees,
    /// Tables at the limits of states, symbols, rules, rank and length.
    Limits,
}

/// The bytes of a table, and the automaton that trees and states are drawn for.
pub struct Drawn {
    pub table: Vec<u8>,
    pub automaton: Automaton,
}

impl From<Automaton> for Drawn {
    fn from(automaton: Automaton) -> Self {
        Self { table: automaton.encode(), automaton }
    }
}

impl Family {
    pub const ALL: [Self; 13] = [
        Self::Dense,
        Self::Sparse,
        Self::Layered,
        Self::Copies,
        Self::Idle,
        Self::Chain,
        Self::Cycles,
        Self::Wide,
        Self::Tiny,
        Self::Damaged,
        Self::Records,
        Self::Trees,
        Self::Limits,
    ];

    pub const fn name(self) -> &'static str {
        match self {
            Self::Dense => "dense",
            Self::Sparse => "sparse",
            Self::Layered => "layered",
            Self::Copies => "copies",
            Self::Idle => "idle",
            Self::Chain => "chain",
            Self::Cycles => "cycles",
            Self::Wide => "wide",
            Self::Tiny => "tiny",
            Self::Damaged => "damaged",
            Self::Records => "records",
            Self::Trees => "trees",
            Self::Limits => "limits",
        }
    }

    /// How many of 10,000 cases are of this family.
    const fn weight(self) -> usize {
        match self {
            Self::Dense => 1500,
            Self::Sparse => 1000,
            Self::Layered => 1000,
            Self::Copies => 1600,
            Self::Idle => 1000,
            Self::Chain => 400,
            Self::Cycles => 300,
            Self::Wide => 700,
            Self::Tiny => 300,
            Self::Damaged => 1700,
            Self::Records => 440,
            Self::Trees => 40,
            Self::Limits => 20,
        }
    }

    pub fn draw(random: &mut Random) -> Self {
        let mut place = random.below(10_000);
        let drawn = Self::ALL.into_iter().find(|family| {
            let here = place < family.weight();
            place = place.saturating_sub(family.weight());
            here
        });
        drawn.expect("the weights sum up to 10,000")
    }

    pub fn table(self, random: &mut Random) -> Drawn {
        match self {
            Self::Dense => small::dense(random).into(),
            Self::Sparse => small::sparse(random).into(),
            Self::Layered => small::layered(random).into(),
            Self::Copies => copies::copies(random).into(),
            Self::Idle => copies::idle(random).into(),
            Self::Chain => unary::chain(random).into(),
            Self::Cycles => unary::cycles(random).into(),
            Self::Wide => small::wide(random).into(),
            Self::Tiny => small::tiny(random).into(),
            Self::Damaged => damaged(random),
            Self::Records => records::records(random),
            Self::Trees => limits::counting(random).into(),
            Self::Limits => limits::limits(random),
        }
    }
}

fn damaged(random: &mut Random) -> Drawn {
    let families = [Family::Dense, Family::Sparse, Family::Layered, Family::Wide, Family::Tiny];
    let mut drawn = random.pick(&families).table(random);
    damage(random, &mut drawn.table);
    drawn
}

/// Ranks of symbols, one of them 0 most often.
fn ranks(random: &mut Random, symbols: usize, from: &[u8]) -> Vec<u8> {
    let mut ranks: Vec<u8> = (0..symbols).map(|_| random.pick(from)).collect();
    if symbols > 0 && !random.one_in(20) {
        ranks[random.below(symbols)] = 0;
    }
    ranks
}

/// A rule of any symbol, target and children.
fn any_rule(random: &mut Random, ranks: &[u8], states: usize) -> Rule {
    let symbol = random.below(ranks.len());
    let target = random.below(states);
    rule_of(random, ranks, symbol, target, states)
}

/// A rule of this symbol and target, with children below `below`.
fn rule_of(random: &mut Random, ranks: &[u8], symbol: usize, target: usize, below: usize) -> Rule {
    let children: Vec<u16> = (0..ranks[symbol]).map(|_| random.below(below) as u16).collect();
    Rule::new(symbol as u16, target as u16, &children)
}

/// The automaton of these rules, with some of its states final, one most often.
fn with_finals(random: &mut Random, states: usize, ranks: Vec<u8>, rules: Vec<Rule>) -> Automaton {
    let times = random.pick(&[1, 2, 3, 5]);
    let mut finals = random.some_below(states, times);
    if finals.is_empty() && states > 0 && !random.one_in(8) {
        finals.push(random.below(states) as u16);
    }
    Automaton { states, ranks, finals, rules }
}

/// A rule of a leaf, if a symbol is one.
fn leaf_rule(random: &mut Random, ranks: &[u8], states: usize) -> Option<Rule> {
    let symbol = ranks.iter().position(|&rank| rank == 0)?;
    Some(Rule::new(symbol as u16, random.below(states) as u16, &[]))
}

/// The automaton with other names for its states, `names[q]` for q.
fn renamed(automaton: &Automaton, names: &[u16]) -> Automaton {
    let name = |&state: &u16| names[usize::from(state)];
    let mut finals: Vec<u16> = automaton.finals.iter().map(name).collect();
    finals.sort_unstable();
    let rename = |rule: &Rule| {
        let children: Vec<u16> = rule.children().iter().map(name).collect();
        Rule::new(rule.symbol, name(&rule.target), &children)
    };
    Automaton {
        states: automaton.states,
        ranks: automaton.ranks.clone(),
        finals,
        rules: automaton.rules.iter().map(rename).collect(),
    }
}

/// The automaton with its states and rules in another order, half of the time.
fn stirred(random: &mut Random, mut automaton: Automaton) -> Automaton {
    if random.one_in(2) {
        return automaton;
    }
    let mut names: Vec<u16> = (0..automaton.states as u16).collect();
    random.shuffle(&mut names);
    random.shuffle(&mut automaton.rules);
    renamed(&automaton, &names)
}

#[cfg(test)]
mod tests {
    use super::*;

    #[test]
    fn the_weights_sum_up() {
        assert_eq!(Family::ALL.iter().map(|family| family.weight()).sum::<usize>(), 10_000);
    }

    #[test]
    fn all_families_stand_at_their_places() {
        assert!(Family::ALL.iter().enumerate().all(|(at, &family)| family as usize == at));
    }
}
