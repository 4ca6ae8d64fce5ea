//! Where a check points in a tree that is not accepted, against the sentences of
//! document 02 on trees that are not bytes.

mod common;
mod random;

use checker::{Answer, Automaton, Counts, MAX_NODES, Rule, Subtree, check, reduce};
use common::T;
use random::Random;

const A: u16 = 0;
const B: u16 = 1;
const F: u16 = 2;

#[derive(Clone, Debug)]
struct Node {
    symbol: u16,
    children: Vec<Node>,
}

impl Node {
    /// The subtrees, each where its top node stands in postfix order.
    fn subtrees(&self) -> Vec<&Node> {
        self.children.iter().flat_map(Self::subtrees).chain([self]).collect()
    }

    fn symbols(&self) -> Vec<u16> {
        self.subtrees().iter().map(|subtree| subtree.symbol).collect()
    }

    fn belongs(&self, automaton: &Automaton, state: u16) -> bool {
        automaton.rules.iter().any(|rule| {
            let mut places = self.children.iter().zip(rule.children());
            rule.target == state
                && rule.symbol == self.symbol
                && places.all(|(child, &state)| child.belongs(automaton, state))
        })
    }

    fn has_state(&self, automaton: &Automaton) -> bool {
        (0..automaton.states as u16).any(|state| self.belongs(automaton, state))
    }
}

fn tree(symbols: &[u16]) -> Vec<u8> {
    let body: Vec<u8> = symbols.iter().flat_map(|symbol| symbol.to_le_bytes()).collect();
    let length = 2 + body.len() as u32;
    [&length.to_le_bytes(), &16_u16.to_le_bytes()[..], &body].concat()
}

fn answer(table: &[u8], symbols: &[u16]) -> Answer {
    check(table, &tree(symbols), Counts::default()).0
}

fn rejected(node: usize, size: usize) -> Answer {
    Answer::Rejected(Subtree { node, size })
}

/// Asserts that a check says of a tree what the documents say, and returns the
/// subtree that it names.
fn named(automaton: &Automaton, whole: &Node) -> Option<Subtree> {
    let symbols = whole.symbols();
    let accepted = automaton.finals.iter().any(|&state| whole.belongs(automaton, state));
    let subtree = match answer(&automaton.encode(), &symbols) {
        Answer::Accepted => None,
        Answer::Rejected(subtree) => Some(subtree),
        Answer::Refused(refusal) => panic!("{refusal:?}: {whole:?}"),
    };
    assert_eq!(subtree.is_none(), accepted, "{automaton:?} {whole:?}");

    let Subtree { node, size } = subtree?;
    let all = whole.subtrees();
    let (earlier, named) = (&all[..node], all[node]);
    let inside = named.subtrees();
    let (_, smaller) = inside.split_last().expect("the subtree itself");
    assert_eq!(inside.len(), size, "{automaton:?} {whole:?}");
    assert_eq!(named.symbols(), symbols[node + 1 - size..=node], "{automaton:?} {whole:?}");
    let has_state = |tree: &&Node| tree.has_state(automaton);
    assert!(earlier.iter().all(has_state), "{automaton:?} {whole:?}");
    assert!(smaller.iter().all(has_state), "{automaton:?} {whole:?}");
    assert!(!has_state(&named) || size == symbols.len(), "{automaton:?} {whole:?}");
    subtree
}

/// All trees of so many nodes over the symbols of T.
fn all_trees(nodes: usize) -> Vec<Node> {
    if nodes == 1 {
        return [A, B].map(|symbol| Node { symbol, children: vec![] }).into();
    }
    let mut trees = Vec::new();
    for left in 1..nodes - 1 {
        for first in all_trees(left) {
            for second in all_trees(nodes - 1 - left) {
                trees.push(Node { symbol: F, children: vec![first.clone(), second] });
            }
        }
    }
    trees
}

/// A tree of up to this height. One rank must be 0.
fn any_tree(random: &mut Random, ranks: &[u8], height: usize) -> Node {
    let symbol = loop {
        let symbol = random.below(ranks.len());
        if height > 0 || ranks[symbol] == 0 {
            break symbol;
        }
    };
    let children = (0..ranks[symbol]).map(|_| any_tree(random, ranks, height - 1)).collect();
    Node { symbol: symbol as u16, children }
}

#[test]
fn trees_of_the_bench_table() {
    assert_eq!(answer(&T, &[A]), rejected(0, 1));
    assert_eq!(answer(&T, &[A, A, F, A, F]), rejected(4, 5));
    assert_eq!(answer(&T, &[A, A, F, A, F, B, F]), rejected(4, 5));
    assert_eq!(answer(&T, &[A, A, A, A, F, F, F]), rejected(5, 5));
    assert_eq!(answer(&T, &[A, A, F, A, A, F, F]), rejected(6, 7));
    assert_eq!(answer(&T, &[B, A, F]), Answer::Accepted);
}

#[test]
fn all_small_trees_of_the_bench_table() {
    let bench = Automaton::read(&T).expect("the bench table");
    for (nodes, count) in [(1, 2), (3, 4), (5, 16), (7, 80), (9, 448)] {
        let trees = all_trees(nodes);
        assert_eq!(trees.len(), count);
        let accepted = trees.iter().filter(|tree| named(&bench, tree).is_none()).count();
        assert_eq!(accepted, if nodes == 3 { 4 } else { 0 });
    }
}

#[test]
fn without_states() {
    let empty = Automaton { states: 0, ranks: vec![0], finals: vec![], rules: vec![] };
    assert_eq!(answer(&empty.encode(), &[0]), rejected(0, 1));
}

#[test]
fn a_reduced_table_may_name_another() {
    let rules = vec![Rule::new(0, 0, &[]), Rule::new(1, 1, &[]), Rule::new(2, 1, &[1])];
    let table = Automaton { states: 2, ranks: vec![0, 0, 1], finals: vec![0], rules }.encode();
    let mut reduced = vec![0; table.len()];
    let length = reduce(&table, &mut reduced).expect("a table").length;
    assert_eq!(answer(&table, &[1, 2]), rejected(1, 2));
    assert_eq!(answer(&reduced[..length], &[1, 2]), rejected(0, 1));
}

#[test]
fn the_last_of_the_most_nodes() {
    let rules = vec![Rule::new(0, 0, &[]), Rule::new(1, 0, &[0])];
    let chains = Automaton { states: 1, ranks: vec![0, 1, 1], finals: vec![0], rules }.encode();
    let mut symbols = vec![1; MAX_NODES];
    symbols[0] = 0;
    assert_eq!(answer(&chains, &symbols), Answer::Accepted);
    symbols[16_383] = 2;
    assert_eq!(answer(&chains, &symbols), rejected(16_383, 16_384));
    symbols[8_000] = 2;
    assert_eq!(answer(&chains, &symbols), rejected(8_000, 8_001));
}

#[test]
fn random_trees() {
    let mut random = Random(0x5851_f42d_4c95_7f2d);
    let (mut accepted, mut whole, mut smaller) = (0, 0, 0);
    for _ in 0..10_000 {
        let automaton = random.automaton(5, 12);
        let height = 1 + random.below(4);
        let tree = any_tree(&mut random, &automaton.ranks, height);
        match named(&automaton, &tree) {
            None => accepted += 1,
            Some(Subtree { size, .. }) if size == tree.subtrees().len() => whole += 1,
            Some(_) => smaller += 1,
        }
    }
    let each = [accepted, whole, smaller];
    assert!(each.iter().all(|&count| count > 1_500), "{each:?}");
}
