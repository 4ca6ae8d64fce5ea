//! The subtree that a check names, and its symbols.

use crate::layout::*;
use fensullay::{Answer, Counts, Refusal, Subtree, check, reduced, subtree_symbols};

fn answer(table: &[u8], nodes: &[u16]) -> Answer {
    check(Counts::fresh(), table, &tree(nodes)).answer
}

/// The symbols of the subtree that a check names.
fn named_symbols(table: &[u8], nodes: &[u16]) -> Option<Vec<u16>> {
    match answer(table, nodes) {
        Answer::Rejected(subtree) => subtree_symbols(&tree(nodes), subtree),
        Answer::Accepted | Answer::Refused(_) => None,
    }
}

/// The symbols of a subtree of f(f(a, a), b).
fn symbols(node: usize, size: usize) -> Option<Vec<u16>> {
    subtree_symbols(&tree(&[A, A, F, B, F]), Subtree { node, size })
}

/// A leaf with nodes of symbol 1 above it.
fn chain(nodes: usize) -> Vec<u16> {
    let mut symbols = vec![1; nodes];
    symbols[0] = 0;
    symbols
}

#[test]
fn bench_table() {
    assert_eq!(answer(&bench(), &[A]), rejected(0, 1));
    assert_eq!(answer(&bench(), &[A, A, F, A, F]), rejected(4, 5));
    assert_eq!(answer(&bench(), &[A, A, F, A, F, B, F]), rejected(4, 5));
    assert_eq!(answer(&bench(), &[A, A, A, A, F, F, F]), rejected(5, 5));
    assert_eq!(answer(&bench(), &[A, A, F, A, A, F, F]), rejected(6, 7));
    assert_eq!(answer(&bench(), &[B, A, F]), Answer::Accepted);
}

/// The bench table with one more leaf, for which there is no rule.
#[test]
fn a_leaf_without_a_rule() {
    const C: u16 = 3;
    let wider = table(5, &[0, 0, 2, 0], &[3], &bench_rules());
    assert_eq!(answer(&wider, &[C]), rejected(0, 1));
    assert_eq!(answer(&wider, &[A, C, F]), rejected(1, 1));
    assert_eq!(answer(&wider, &[C, C, F]), rejected(0, 1));
    assert_eq!(answer(&wider, &[A, A, F, C, F]), rejected(3, 1));
    // The first in postfix order is not the smallest.
    assert_eq!(answer(&wider, &[A, A, F, A, F, C, F]), rejected(4, 5));
    assert_eq!(answer(&wider, &[C, A, A, F, A, F, F]), rejected(0, 1));
}

/// Every node has a state, but that of the top is not final.
#[test]
fn the_whole_tree() {
    let none_final = table(5, &[0, 0, 2], &[], &bench_rules());
    assert_eq!(answer(&none_final, &[B]), rejected(0, 1));
    assert_eq!(answer(&none_final, &[B, A, F]), rejected(2, 3));
}

#[test]
fn no_states() {
    assert_eq!(answer(&table(0, &[0], &[], &[]), &[0]), rejected(0, 1));
    assert_eq!(answer(&table(0, &[0, 2], &[], &[]), &[0, 0, 1]), rejected(0, 1));
}

/// Symbol 1 has a rule, symbol 2 has none.
#[test]
fn the_most_nodes() {
    let chains = table(1, &[0, 1, 1], &[0], &[rule(0, &[], 0), rule(1, &[0], 0)]);
    for nodes in [63, 64, 65, 16_384] {
        let mut symbols = chain(nodes);
        assert_eq!(answer(&chains, &symbols), Answer::Accepted);
        symbols[nodes - 1] = 2;
        assert_eq!(answer(&chains, &symbols), rejected(nodes - 1, nodes));
        symbols[nodes - 2] = 2;
        assert_eq!(answer(&chains, &symbols), rejected(nodes - 2, nodes - 1));
        symbols[1] = 2;
        assert_eq!(answer(&chains, &symbols), rejected(1, 2));
    }
}

/// Symbols 2 and 3 have no rule, a leaf and a node of two children.
#[test]
fn the_most_waiting() {
    let pairs = table(1, &[0, 2, 0, 2], &[0], &[rule(0, &[], 0), rule(1, &[0, 0], 0)]);
    let right_leaning = [vec![0; 1_024], vec![1; 1_023]].concat();
    let with = |place: usize, symbol: u16| {
        let mut symbols = right_leaning.clone();
        symbols[place] = symbol;
        answer(&pairs, &symbols)
    };
    assert_eq!(with(0, 2), rejected(0, 1));
    assert_eq!(with(1_023, 2), rejected(1_023, 1));
    assert_eq!(with(1_024, 3), rejected(1_024, 3));
    assert_eq!(with(2_046, 3), rejected(2_046, 2_047));
}

/// a -> 0, b -> 1, g(1) -> 1, with 0 final: no accepted tree needs state 1.
#[test]
fn a_reduced_table_may_name_another() {
    let rules = [rule(0, &[], 0), rule(1, &[], 1), rule(2, &[1], 1)];
    let longer = table(2, &[0, 0, 1], &[0], &rules);
    let (shorter, _) = reduced(&longer).unwrap();
    assert_eq!(shorter, table(1, &[0, 0, 1], &[0], &rules[..1]));
    assert_eq!(answer(&longer, &[1, 2]), rejected(1, 2));
    assert_eq!(answer(&shorter, &[1, 2]), rejected(0, 1));
    assert_eq!(named_symbols(&longer, &[1, 2]), Some(vec![1, 2]));
    assert_eq!(named_symbols(&shorter, &[1, 2]), Some(vec![1]));
}

#[test]
fn symbols_of_the_named_subtree() {
    assert_eq!(named_symbols(&bench(), &[A, A, F, A, F, B, F]), Some(vec![A, A, F, A, F]));
    assert_eq!(named_symbols(&bench(), &[A, A, A, A, F, F, F]), Some(vec![A, A, A, F, F]));
    assert_eq!(named_symbols(&bench(), &[B]), Some(vec![B]));
    assert_eq!(named_symbols(&bench(), &[B, A, F]), None);
    assert_eq!(answer(&bench(), &[F]), Answer::Refused(Refusal::Unbalanced));
    assert_eq!(named_symbols(&bench(), &[F]), None);
}

#[test]
fn symbols_of_any_subtree() {
    assert_eq!(symbols(0, 1), Some(vec![A]));
    assert_eq!(symbols(2, 3), Some(vec![A, A, F]));
    assert_eq!(symbols(3, 1), Some(vec![B]));
    assert_eq!(symbols(4, 5), Some(vec![A, A, F, B, F]));
    let high = tree(&[0x0102, 0xffff]);
    assert_eq!(subtree_symbols(&high, Subtree { node: 1, size: 2 }), Some(vec![258, 65_535]));
}

#[test]
fn no_symbols() {
    for node in [0, 1, 4, 5, usize::MAX] {
        assert_eq!(symbols(node, 0), None);
        assert_eq!(symbols(node, 6), None);
        assert_eq!(symbols(node, usize::MAX), None);
    }
    for node in [5, 6, 1_000_000, usize::MAX - 1, usize::MAX] {
        assert_eq!(symbols(node, 1), None);
        assert_eq!(symbols(node, node), None);
    }
    let leaf = tree(&[A]);
    for length in 0..leaf.len() {
        assert_eq!(subtree_symbols(&leaf[..length], Subtree { node: 0, size: 1 }), None);
    }
}
