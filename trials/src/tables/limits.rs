use checker::{Automaton, MAX_RANK, MAX_RULES, MAX_STATES, MAX_SYMBOLS, Rule};

use super::{Drawn, any_rule, with_finals};
use crate::damage::damage;
use crate::random::Random;

/// Ranks of the symbols of `counting`. The last three have no rules.
const LEAF: usize = 0;
const RANKS: [u8; 6] = [0, 1, 2, 0, 1, 2];

/// Counts the nodes of a tree by some measure, up to a small number of states:
/// a unary node adds one, a binary node adds its children up. Up to two rules
/// more disturb it.
pub fn counting(random: &mut Random) -> Automaton {
    let states = random.between(2, 5);
    let mut rules = vec![Rule::new(LEAF as u16, random.below(states) as u16, &[])];
    let state = |number: usize| (number % states) as u16;
    for q in 0..states {
        rules.push(Rule::new(1, state(q + 1), &[state(q)]));
        rules.extend((0..states).map(|r| Rule::new(2, state(q + r), &[state(q), state(r)])));
    }
    for _ in 0..random.below(3) {
        rules.push(any_rule(random, &RANKS[..3], states));
    }
    let finals = vec![random.below(states) as u16];
    Automaton { states, ranks: RANKS.to_vec(), finals, rules }
}

pub fn limits(random: &mut Random) -> Drawn {
    match random.below(8) {
        0 => many_states(random).into(),
        1 => many_symbols(random).into(),
        2 => many_rules(random).into(),
        3 => longest(random).into(),
        4 => longest_live(random).into(),
        5 => full(random).into(),
        6 => one_above(random),
        _ => damaged_longest(random),
    }
}

fn drawn(random: &mut Random, states: usize, ranks: Vec<u8>, rules: usize) -> Automaton {
    let rules = (0..rules).map(|_| any_rule(random, &ranks, states)).collect();
    with_finals(random, states, ranks, rules)
}

fn many_states(random: &mut Random) -> Automaton {
    let states = MAX_STATES - random.below(2);
    let rules = random.between(0, 300);
    drawn(random, states, vec![0, 0, 1, 2], rules)
}

fn many_symbols(random: &mut Random) -> Automaton {
    let symbols = MAX_SYMBOLS - random.below(2);
    let ranks = (0..symbols).map(|_| random.pick(&[0, 0, 1, 2, 8])).collect();
    let states = random.between(1, 6);
    let rules = random.between(1, 200);
    drawn(random, states, ranks, rules)
}

fn many_rules(random: &mut Random) -> Automaton {
    let states = random.between(1, 8);
    let rules = MAX_RULES - random.below(2);
    drawn(random, states, vec![0, 1, 1, 2, 2, 3], rules)
}

/// All limits at once: 27,416 bytes.
fn longest(random: &mut Random) -> Automaton {
    let ranks = vec![MAX_RANK as u8; MAX_SYMBOLS];
    let mut automaton = drawn(random, MAX_STATES, ranks, MAX_RULES);
    automaton.finals = (0..MAX_STATES as u16).collect();
    automaton
}

/// As the longest, but for the leaves of a few states, and with children of
/// these states often.
fn longest_live(random: &mut Random) -> Automaton {
    let mut automaton = longest(random);
    automaton.ranks[0] = 0;
    let leaves = random.between(1, 20);
    for (at, rule) in automaton.rules.iter_mut().enumerate() {
        let leaf = at < leaves || rule.symbol == 0;
        let children: &[u16] = if leaf { &[] } else { rule.children() };
        let children: Vec<u16> = children.iter().map(|&child| child % 16).collect();
        *rule = Rule::new(if leaf { 0 } else { rule.symbol }, rule.target, &children);
    }
    automaton
}

/// 256 states and 1,024 rules, most of them of two binary symbols.
fn full(random: &mut Random) -> Automaton {
    drawn(random, MAX_STATES, vec![0, 1, 2, 2], MAX_RULES)
}

/// One state, symbol, rule or rank too many.
fn one_above(random: &mut Random) -> Drawn {
    let mut automaton = many_rules(random);
    match random.below(4) {
        0 => automaton.states = MAX_STATES + 1,
        1 => automaton.ranks.resize(MAX_SYMBOLS + 1, 0),
        2 => automaton.rules.resize(MAX_RULES + 1, automaton.rules[0]),
        _ => automaton.ranks[0] = MAX_RANK as u8 + 1,
    }
    Drawn { table: automaton.encode(), automaton: many_rules(random) }
}

fn damaged_longest(random: &mut Random) -> Drawn {
    let mut drawn: Drawn = longest(random).into();
    damage(random, &mut drawn.table);
    drawn
}
