use checker::{Automaton, MAX_NODES, MAX_WAITING, Rule, Subtree, Tree};

use crate::damage::damage;
use crate::layout::tree;
use crate::random::Random;

/// The largest smallest tree of a state that is grown.
const LARGEST: usize = 400;

/// Trees for the checks of a table.
pub struct Trees<'a> {
    automaton: &'a Automaton,
    /// For each state the number of nodes of its smallest tree, and the rule at
    /// its top.
    smallest: Vec<Option<(usize, &'a Rule)>>,
}

impl<'a> Trees<'a> {
    pub fn new(automaton: &'a Automaton) -> Self {
        Self { automaton, smallest: smallest(automaton) }
    }

    /// Any tree, an accepted one, or an accepted one with another subtree in it;
    /// damaged one time out of five.
    pub fn draw(&self, random: &mut Random) -> Vec<u8> {
        let kind = random.below(3);
        let accepted = if kind > 0 { self.accepted(random) } else { None };
        let mut symbols = accepted.unwrap_or_else(|| self.any(random));
        if kind > 1 {
            self.change_subtree(random, &mut symbols);
        }
        if random.one_in(5) {
            change_nodes(random, self.automaton.ranks.len(), &mut symbols);
        }
        let mut tree = tree(&symbols);
        if random.one_in(12) {
            damage(random, &mut tree);
        }
        tree
    }

    /// A tree of a final state, if one is small enough.
    fn accepted(&self, random: &mut Random) -> Option<Vec<u16>> {
        let grown = |&&state: &&u16| self.smallest[usize::from(state)].is_some();
        let finals: Vec<u16> = self.automaton.finals.iter().filter(grown).copied().collect();
        if finals.is_empty() {
            return None;
        }
        let top = random.pick(&finals);
        let mut symbols = Vec::new();
        let mut choices = random.below(13);
        self.grow(random, top, &mut choices, &mut symbols);
        Some(symbols)
    }

    /// Grows a tree of a state, with any rule while there are choices left and
    /// then with those of the smallest trees.
    fn grow(&self, random: &mut Random, state: u16, choices: &mut usize, symbols: &mut Vec<u16>) {
        let (_, mut rule) = self.smallest[usize::from(state)].expect("a state of a tree");
        if *choices > 0 {
            *choices -= 1;
            rule = self.any_rule(random, state);
        }
        for &child in rule.children() {
            self.grow(random, child, choices, symbols);
        }
        symbols.push(rule.symbol);
    }

    /// A rule of a state whose children all have a smallest tree.
    fn any_rule(&self, random: &mut Random, state: u16) -> &'a Rule {
        let grown = |&child: &u16| self.smallest[usize::from(child)].is_some();
        let fits = |rule: &&Rule| rule.target == state && rule.children().iter().all(grown);
        let rules: Vec<&Rule> = self.automaton.rules.iter().filter(fits).collect();
        random.pick(&rules)
    }

    /// Puts any tree in the place of a subtree, if the symbols are a tree's.
    fn change_subtree(&self, random: &mut Random, symbols: &mut Vec<u16>) {
        let bytes = tree(symbols);
        if let Ok(tree) = Tree::read(&bytes, &self.automaton.ranks) {
            let Subtree { node, size } = tree.subtree(random.below(symbols.len()));
            symbols.splice(node + 1 - size..=node, self.any(random));
        }
    }

    /// Any tree over the symbols, or any symbols if none is a leaf.
    fn any(&self, random: &mut Random) -> Vec<u16> {
        let ranks = &self.automaton.ranks;
        let leaves: Vec<u16> = of_rank(ranks, 0).collect();
        if leaves.is_empty() {
            let symbol = |random: &mut Random| random.below(ranks.len() + 1) as u16;
            return (0..random.below(4)).map(|_| symbol(random)).collect();
        }
        let mut symbols = Vec::new();
        let height = random.below(5);
        let mut left = 60;
        any_tree(random, ranks, &leaves, height, &mut left, &mut symbols);
        symbols
    }
}

/// Puts any tree of this height at most behind the symbols. When none of the
/// `left` nodes is left all further ones are leaves.
fn any_tree(
    random: &mut Random,
    ranks: &[u8],
    leaves: &[u16],
    height: usize,
    left: &mut usize,
    symbols: &mut Vec<u16>,
) {
    *left = left.saturating_sub(1);
    let leaf = height == 0 || *left == 0;
    let symbol = if leaf { random.pick(leaves) } else { random.below(ranks.len()) as u16 };
    for _ in 0..ranks[usize::from(symbol)] {
        any_tree(random, ranks, leaves, height - 1, left, symbols);
    }
    symbols.push(symbol);
}

fn of_rank(ranks: &[u8], rank: u8) -> impl Iterator<Item = u16> {
    (0..).zip(ranks).filter(move |&(_, &other)| other == rank).map(|(symbol, _)| symbol)
}

/// For each state the number of nodes of its smallest tree, and the rule at its
/// top.
pub fn smallest(automaton: &Automaton) -> Vec<Option<(usize, &Rule)>> {
    let mut smallest: Vec<Option<(usize, &Rule)>> = vec![None; automaton.states];
    loop {
        let mut changed = false;
        for rule in &automaton.rules {
            let children = rule.children().iter().map(|&child| smallest[usize::from(child)]);
            let nodes = children.map(|child| child.map(|(nodes, _)| nodes)).sum::<Option<usize>>();
            let place = &mut smallest[usize::from(rule.target)];
            if let Some(nodes) = nodes
                && nodes < LARGEST
                && place.is_none_or(|(least, _)| nodes + 1 < least)
            {
                *place = Some((nodes + 1, rule));
                changed = true;
            }
        }
        if !changed {
            return smallest;
        }
    }
}

/// Changes, inserts, leaves out or swaps a node, once or twice.
fn change_nodes(random: &mut Random, symbol_count: usize, symbols: &mut Vec<u16>) {
    for _ in 0..random.between(1, 2) {
        if symbols.is_empty() {
            return;
        }
        let (place, other) = (random.below(symbols.len()), random.below(symbols.len()));
        let symbol = random.below(symbol_count + 1) as u16;
        match random.below(4) {
            0 => symbols[place] = symbol,
            1 => symbols.insert(place, symbol),
            2 => drop(symbols.remove(place)),
            _ => symbols.swap(place, other),
        }
    }
}

/// A tree at a limit over symbols of which 0 is a leaf, 1 unary and 2 binary:
/// first leaves that wait, then all of them joined, then unary nodes. Half of
/// the time one or two nodes have a symbol of the same rank without rules, which
/// is three higher. One in three gets an unknown symbol, right behind the leaves
/// if many wait: then two causes can meet, and their order counts.
pub fn at_limit(random: &mut Random) -> Vec<u8> {
    let waiting = if random.one_in(2) { MAX_WAITING - 1 + random.below(3) } else { 1 };
    let joined = 2 * waiting - 1;
    let nodes = match random.below(3) {
        0 => joined,
        1 => joined + random.below(20),
        _ => MAX_NODES - 1 + random.below(3),
    };
    let mut symbols = vec![0; waiting];
    symbols.resize(joined, 2);
    symbols.resize(nodes, 1);
    if random.one_in(2) {
        for _ in 0..random.between(1, 2) {
            let place = random.below(nodes);
            symbols[place] = 3 + symbols[place] % 3;
        }
    }
    match random.below(3) {
        0 => change_nodes(random, 6, &mut symbols),
        1 => symbols[if waiting > 1 { waiting } else { random.below(nodes) }] = 6,
        _ => {}
    }
    tree(&symbols)
}
