use checker::{Automaton, Rule};

use super::{any_rule, leaf_rule, ranks, rule_of, stirred, with_finals};
use crate::random::Random;

/// Few states and many rules: one in three is an earlier one again, and one in
/// three an earlier one with another target.
pub fn dense(random: &mut Random) -> Automaton {
    let states = random.between(1, 5);
    let symbols = random.between(1, 4);
    let ranks = ranks(random, symbols, &[0, 0, 1, 1, 2, 2, 3]);
    let mut rules: Vec<Rule> = vec![any_rule(random, &ranks, states)];
    for _ in 0..random.between(1, 29) {
        let earlier = random.pick(&rules);
        let rule = match random.below(3) {
            0 => earlier,
            1 => Rule::new(earlier.symbol, random.below(states) as u16, earlier.children()),
            _ => any_rule(random, &ranks, states),
        };
        rules.push(rule);
    }
    if !random.one_in(8) {
        rules.extend(leaf_rule(random, &ranks, states));
    }
    with_finals(random, states, ranks, rules)
}

/// One to three rules to a state, and leaves for one state in four.
pub fn sparse(random: &mut Random) -> Automaton {
    let states = random.between(1, 30);
    let symbols = random.between(2, 5);
    let mut ranks = ranks(random, symbols, &[0, 1, 1, 2, 2, 3]);
    ranks[0] = 0;
    let mut rules: Vec<Rule> =
        (0..random.between(states, 3 * states)).map(|_| any_rule(random, &ranks, states)).collect();
    for state in random.some_below(states, 4) {
        rules.push(Rule::new(0, state, &[]));
    }
    random.shuffle(&mut rules);
    with_finals(random, states, ranks, rules)
}

/// Leaves for the lowest states; the children of other rules are below their
/// target.
pub fn layered(random: &mut Random) -> Automaton {
    let ranks = vec![0, 0, 1, 2];
    let leaves = random.between(1, 4);
    let states = leaves + random.between(1, 5);
    let mut rules = Vec::new();
    for target in 0..leaves {
        for _ in 0..random.between(1, 2) {
            rules.push(Rule::new(random.below(2) as u16, target as u16, &[]));
        }
    }
    for target in leaves..states {
        for _ in 0..random.between(1, 5) {
            let symbol = random.between(2, 3);
            rules.push(rule_of(random, &ranks, symbol, target, target));
        }
    }
    let automaton = with_finals(random, states, ranks, rules);
    stirred(random, automaton)
}

/// Ranks 5 to 8; one rule in two is an earlier one with another child.
pub fn wide(random: &mut Random) -> Automaton {
    let states = random.between(1, 6);
    let mut ranks = vec![0, 8, random.between(5, 8) as u8];
    ranks.truncate(random.between(2, 3));
    let mut rules: Vec<Rule> = vec![any_rule(random, &ranks, states)];
    for _ in 0..random.between(1, 24) {
        let earlier = random.pick(&rules);
        let rule = if random.one_in(2) {
            any_rule(random, &ranks, states)
        } else {
            with_another_child(random, &earlier, states)
        };
        rules.push(rule);
    }
    if !random.one_in(8) {
        rules.extend(leaf_rule(random, &ranks, states));
    }
    with_finals(random, states, ranks, rules)
}

fn with_another_child(random: &mut Random, rule: &Rule, states: usize) -> Rule {
    let mut children = rule.children().to_vec();
    if !children.is_empty() {
        let place = random.below(children.len());
        children[place] = random.below(states) as u16;
    }
    Rule::new(rule.symbol, rule.target, &children)
}

/// At most 2 states, 2 symbols and 3 rules, and nothing at all too.
pub fn tiny(random: &mut Random) -> Automaton {
    let states = random.below(3);
    let symbols = random.below(3);
    let ranks = ranks(random, symbols, &[0, 0, 1, 2, 8]);
    let rules = if states == 0 || symbols == 0 { 0 } else { random.below(4) };
    let rules = (0..rules).map(|_| any_rule(random, &ranks, states)).collect();
    with_finals(random, states, ranks, rules)
}
