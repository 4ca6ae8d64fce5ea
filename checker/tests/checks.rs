mod common;

use checker::{
    Answer, Automaton, Counts, MAX_NODES, MAX_WAITING, Refusal, Rule, Subtree, Tree, check,
};
use common::T;

const A: u16 = 0;
const B: u16 = 1;
const F: u16 = 2;

fn record(kind: u16, body: &[u8]) -> Vec<u8> {
    let length = 2 + body.len() as u32;
    [&length.to_le_bytes(), &kind.to_le_bytes()[..], body].concat()
}

fn tree(symbols: &[u16]) -> Vec<u8> {
    record(16, &symbols.iter().flat_map(|symbol| symbol.to_le_bytes()).collect::<Vec<_>>())
}

/// The answer of the bench table.
fn answer(tree: &[u8]) -> Answer {
    check(&T, tree, Counts::default()).0
}

/// The refusal's number over ranks 0, 0, 2, or 0.
fn number(bytes: &[u8]) -> u8 {
    Tree::read(bytes, &[0, 0, 2]).map_or_else(Refusal::number, |_| 0)
}

#[test]
fn b6_to_b8() {
    assert_eq!(answer(&tree(&[B, A, F])), Answer::Accepted);
    assert_eq!(answer(&tree(&[A])), Answer::Rejected(Subtree { node: 0, size: 1 }));
    let whole = Subtree { node: 4, size: 5 };
    assert_eq!(answer(&tree(&[A, A, F, A, F])), Answer::Rejected(whole));
}

#[test]
fn b9_and_b10() {
    assert_eq!(answer(&tree(&[F])), Answer::Refused(Refusal::Unbalanced));
    assert_eq!(answer(&tree(&[])), Answer::Refused(Refusal::Unbalanced));
    assert_eq!(answer(&tree(&[3])), Answer::Refused(Refusal::UnknownSymbol));
    assert_eq!(number(&tree(&[F])), 10);
    assert_eq!(number(&tree(&[])), 10);
    assert_eq!(number(&tree(&[3])), 9);
}

#[test]
fn not_a_tree() {
    assert_eq!(number(&[]), 8);
    assert_eq!(number(&[0]), 8);
    assert_eq!(number(&record(15, &[0, 0])), 8);
    assert_eq!(number(&record(272, &[0, 0])), 8);
    assert_eq!(number(&record(16, &[0])), 8);
    assert_eq!(number(&record(16, &[0, 0, 0])), 8);
    assert_eq!(number(&tree(&[A])[..7]), 8);
    assert_eq!(number(&[tree(&[A]), vec![0]].concat()), 8);
    assert_eq!(number(&[tree(&[A]), tree(&[A])].concat()), 8);
    assert_eq!(number(&[tree(&[A]), tree(&[])].concat()), 8);
}

#[test]
fn unknown_symbol() {
    assert_eq!(number(&tree(&[A, 3])), 9);
    assert_eq!(number(&tree(&[A, A, 258])), 9);
    assert_eq!(number(&tree(&[3, F])), 9);
}

#[test]
fn unbalanced() {
    assert_eq!(number(&tree(&[A, F])), 10);
    assert_eq!(number(&tree(&[A, B])), 10);
    assert_eq!(number(&tree(&[A, F, 3])), 10);
    assert_eq!(number(&tree(&[A, A, F, B])), 10);
}

#[test]
fn nodes() {
    let chain = |nodes: usize| {
        let mut symbols = vec![0; nodes];
        symbols[1..].fill(1);
        tree(&symbols)
    };
    let read = |bytes: &[u8]| Tree::read(bytes, &[0, 1]).map(|tree| tree.nodes().len());
    assert_eq!(read(&chain(MAX_NODES)), Ok(16_384));
    assert_eq!(read(&chain(16_385)), Err(Refusal::TreeAboveLimit));
    // The node limit comes before the nodes.
    assert_eq!(read(&tree(&[9; 16_385])), Err(Refusal::TreeAboveLimit));
    assert_eq!(read(&tree(&[9; 16_384])), Err(Refusal::UnknownSymbol));
    assert_eq!(read(&tree(&[1; 16_385])), Err(Refusal::TreeAboveLimit));
    assert_eq!(read(&tree(&[1; 16_384])), Err(Refusal::Unbalanced));
    assert_eq!(read(&record(16, &[9; 32_771])), Err(Refusal::NotATree));
    assert_eq!(Refusal::TreeAboveLimit.number(), 11);
}

#[test]
fn waiting() {
    let right_leaning = |leaves: usize| tree(&[vec![A; leaves], vec![F; leaves - 1]].concat());
    assert_eq!(number(&right_leaning(MAX_WAITING)), 0);
    assert_eq!(number(&right_leaning(1_025)), 11);
    assert_eq!(number(&tree(&[A; 1_024])), 10);
    assert_eq!(number(&tree(&[A; 1_025])), 11);
    assert_eq!(number(&tree(&[&[A; 1_024][..], &[3]].concat())), 9);
    assert_eq!(number(&tree(&[&[A; 1_025][..], &[3]].concat())), 11);
    assert_eq!(number(&tree(&[&[F][..], &[A; 1_025]].concat())), 10);
}

#[test]
fn children_stand_in_order() {
    let ordered = Automaton {
        states: 3,
        ranks: vec![0, 0, 2],
        finals: vec![2],
        rules: vec![Rule::new(0, 0, &[]), Rule::new(1, 1, &[]), Rule::new(2, 2, &[0, 1])],
    };
    let accepts = |symbols: &[u16]| {
        let bytes = tree(symbols);
        ordered.accepts(Tree::read(&bytes, &ordered.ranks).expect("a tree"))
    };
    assert!(accepts(&[A, B, F]));
    assert!(!accepts(&[B, A, F]));
    assert!(!accepts(&[A, A, F]));
}

#[test]
fn the_table_is_judged_first() {
    let (answer, counts) = check(&T[..124], &[], Counts::default());
    assert_eq!(answer, Answer::Refused(Refusal::BrokenRecord));
    assert_eq!(counts, Counts { accepted: 0, rejected: 0, refused: 1 });
}

#[test]
fn each_check_counts_its_answer() {
    let counts = Counts { accepted: 10, rejected: 20, refused: 30 };
    let after = |symbols: &[u16]| check(&T, &tree(symbols), counts).1;
    assert_eq!(after(&[A, B, F]), Counts { accepted: 11, ..counts });
    assert_eq!(after(&[A]), Counts { rejected: 21, ..counts });
    assert_eq!(after(&[F]), Counts { refused: 31, ..counts });
}

#[test]
fn a_full_count_stays() {
    let full = Counts { accepted: u32::MAX, rejected: u32::MAX, refused: u32::MAX };
    for symbols in [&[A, B, F][..], &[A], &[F]] {
        assert_eq!(check(&T, &tree(symbols), full).1, full);
    }
    let nearly = Counts { rejected: u32::MAX - 1, ..full };
    assert_eq!(check(&T, &tree(&[A]), nearly).1, full);
}
