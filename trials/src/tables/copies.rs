use checker::{Automaton, Rule};

use super::{any_rule, small, stirred};
use crate::random::Random;

/// Each state of a small automaton stands one to four times. Each rule comes
/// once or twice for each copy of its target, with any copies of its children,
/// and now and then a rule is missing or one too many.
pub fn copies(random: &mut Random) -> Automaton {
    let base = if random.one_in(2) { small::dense(random) } else { small::layered(random) };
    let groups = groups(random, base.states);
    let states = groups.iter().map(Vec::len).sum();
    let mut rules = Vec::new();
    for rule in &base.rules {
        for &target in &groups[usize::from(rule.target)] {
            for _ in 0..random.between(1, 2) {
                let copy = |&child: &u16| random.pick(&groups[usize::from(child)]);
                let children: Vec<u16> = rule.children().iter().map(copy).collect();
                rules.push(Rule::new(rule.symbol, target, &children));
            }
        }
    }
    if random.one_in(3) {
        rules.swap_remove(random.below(rules.len()));
    }
    if random.one_in(3) {
        rules.push(any_rule(random, &base.ranks, states));
    }
    let of_final = |&state: &u16| groups[usize::from(state)].iter().copied();
    let finals = base.finals.iter().flat_map(of_final).filter(|_| !random.one_in(4)).collect();
    stirred(random, Automaton { states, ranks: base.ranks, finals, rules })
}

/// The names of the copies of each state.
fn groups(random: &mut Random, states: usize) -> Vec<Vec<u16>> {
    let mut next = 0;
    let mut group = || {
        let first = next;
        next += random.between(1, 4) as u16;
        (first..next).collect()
    };
    (0..states).map(|_| group()).collect()
}

/// A small automaton, with states that no tree reaches and rules that name them,
/// and with states of their own rules that no rule of the others names.
pub fn idle(random: &mut Random) -> Automaton {
    let mut automaton = match random.below(3) {
        0 => small::dense(random),
        1 => small::layered(random),
        _ => copies(random),
    };
    let old = automaton.states;
    let dead = random.below(4);
    let spare = random.below(4);
    automaton.states = old + dead + spare;
    let (first_dead, first_spare) = (old as u16, (old + dead) as u16);
    for state in first_dead..first_spare {
        dead_rules(random, &mut automaton, state);
    }
    for state in first_spare..automaton.states as u16 {
        for _ in 0..random.between(1, 3) {
            let rule = any_rule(random, &automaton.ranks, automaton.states);
            automaton.rules.push(Rule::new(rule.symbol, state, rule.children()));
        }
    }
    if random.one_in(2) {
        automaton.finals.extend(first_dead..first_spare);
    }
    stirred(random, automaton)
}

/// Rules that name a state to which no tree belongs: those of target `dead` have
/// it as a child too.
fn dead_rules(random: &mut Random, automaton: &mut Automaton, dead: u16) {
    for _ in 0..random.between(1, 3) {
        let rule = any_rule(random, &automaton.ranks, automaton.states);
        let mut children = rule.children().to_vec();
        if children.is_empty() {
            continue;
        }
        let place = random.below(children.len());
        children[place] = dead;
        let target = if random.one_in(2) { dead } else { rule.target };
        automaton.rules.push(Rule::new(rule.symbol, target, &children));
    }
}
