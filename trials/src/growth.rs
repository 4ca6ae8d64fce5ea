use checker::{Automaton, Rule};

use crate::random::Random;
use crate::trees::smallest;

/// How many nodes more than its smallest tree a child gets beside one that takes
/// the rest.
const SPARE: usize = 6;

/// Grows trees of a wanted size that belong to a state.
pub struct Growth<'a> {
    automaton: &'a Automaton,
    /// The number of nodes of the smallest tree of each state.
    smallest: Vec<Option<usize>>,
    /// Whether the trees of a state have no largest one.
    endless: Vec<bool>,
    /// States whose trees take the rest of the nodes, where a rule names one.
    greedy: &'a [u16],
}

impl<'a> Growth<'a> {
    pub fn new(automaton: &'a Automaton, greedy: &'a [u16]) -> Self {
        let nodes = |place: Option<(usize, &Rule)>| place.map(|(nodes, _)| nodes);
        let smallest: Vec<_> = smallest(automaton).into_iter().map(nodes).collect();
        let endless = smallest.iter().map(Option::is_some).collect();
        let mut growth = Self { automaton, smallest, endless, greedy };
        while growth.drop_bounded() {}
        growth
    }

    /// The symbols of a tree of a state, in postfix order: as many as `nodes`
    /// where the rules allow it, or a few less.
    pub fn tree(&self, random: &mut Random, state: u16, nodes: usize) -> Vec<u16> {
        let mut symbols = Vec::new();
        self.grow(random, state, nodes, &mut symbols);
        symbols
    }

    /// Takes out of `endless` the states without a rule that names one of them,
    /// and returns whether there were any.
    fn drop_bounded(&mut self) -> bool {
        let names_endless = |state: u16| self.rules(state).any(|rule| self.is_endless(rule));
        let states = 0..self.automaton.states as u16;
        let endless: Vec<bool> = states.map(names_endless).collect();
        let dropped = endless != self.endless;
        self.endless = endless;
        dropped
    }

    fn rules(&self, state: u16) -> impl Iterator<Item = &'a Rule> {
        self.automaton.rules.iter().filter(move |rule| rule.target == state)
    }

    fn is_endless(&self, rule: &Rule) -> bool {
        self.least(rule).is_some() && rule.children().iter().any(|&child| self.grows(child))
    }

    fn grows(&self, state: u16) -> bool {
        self.endless[usize::from(state)]
    }

    fn is_greedy(&self, state: u16) -> bool {
        self.greedy.contains(&state)
    }

    /// The number of nodes of the smallest tree with this rule at its top.
    fn least(&self, rule: &Rule) -> Option<usize> {
        let children = rule.children().iter().map(|&child| self.smallest[usize::from(child)]);
        children.sum::<Option<usize>>().map(|nodes| nodes + 1)
    }

    /// Puts a tree behind the symbols, and returns how many nodes are left over.
    fn grow(&self, random: &mut Random, state: u16, nodes: usize, symbols: &mut Vec<u16>) -> usize {
        let rule = self.any_rule(random, state, nodes);
        let mut left = nodes - self.least(rule).expect("a rule of a tree");
        let greedy = rule.children().iter().any(|&child| self.is_greedy(child));
        let takes = |child: u16| if greedy { self.is_greedy(child) } else { self.grows(child) };
        let mut takers = rule.children().iter().filter(|&&child| takes(child)).count();
        for &child in rule.children() {
            let more = if takes(child) {
                takers -= 1;
                if takers == 0 { left } else { random.below(left + 1) }
            } else {
                random.below(left.min(SPARE) + 1)
            };
            let least = self.smallest[usize::from(child)].expect("a state of a tree");
            left = left - more + self.grow(random, child, least + more, symbols);
        }
        symbols.push(rule.symbol);
        left
    }

    /// A rule whose smallest tree has at most so many nodes: one that names a
    /// greedy state if there is one, or else one whose trees have no largest.
    fn any_rule(&self, random: &mut Random, state: u16, nodes: usize) -> &'a Rule {
        let fits = |rule: &&Rule| self.least(rule).is_some_and(|least| least <= nodes);
        let rules: Vec<&Rule> = self.rules(state).filter(fits).collect();
        let greedy = |rule: &Rule| rule.children().iter().any(|&child| self.is_greedy(child));
        let best = rules.iter().map(|rule| (greedy(rule), self.is_endless(rule))).max();
        let best = |rule: &&Rule| Some((greedy(rule), self.is_endless(rule))) == best;
        random.pick(&rules.into_iter().filter(best).collect::<Vec<_>>())
    }
}
