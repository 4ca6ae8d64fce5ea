//! Each cause of a refusal, and that a refusal leaves every lent byte and number.

use crate::layout::*;
use crate::raw;
use fensullay::{
    Answer, Counts, Refusal, check, compare, judge, reduce, reduced, relate, report, report_lines,
};
use std::error::Error;

/// Asserts that every call refuses a table, whatever else is wrong with its input.
fn refuses_table(table: &[u8], refusal: Refusal) {
    let number = refusal.number();
    let before = table.to_vec();

    assert_eq!(judge(table), Err(refusal));
    assert_eq!(reduced(table), Err(refusal));
    assert_eq!(report_lines(table), format!("refused {number}\n"));
    let mut lent = numbers(8);
    assert_eq!(raw::judge(table, &mut lent), number);

    for tree in [tree(&[A]), vec![]] {
        let checked = check(Counts::fresh(), table, &tree);
        assert_eq!(checked.answer, Answer::Refused(refusal));
        assert_eq!(checked.counts, Counts { refused: 1, ..Counts::fresh() });
        assert_eq!(raw::check(&mut [0; 3], table, &tree, &mut lent), number);
    }
    for room in [0, 30_000] {
        let mut out = bytes(room);
        assert_eq!(relate(table, &mut out), Err(refusal));
        assert_eq!(raw::relate(table, &mut out, &mut lent), number);
        assert_eq!(reduce(table, &mut out), Err(refusal));
        assert_eq!(raw::reduce(table, &mut out, &mut lent), number);
        assert_eq!(out, bytes(room));
    }
    for state in [0, usize::MAX] {
        assert_eq!(compare(table, state, 0), Err(refusal));
        assert_eq!(compare(table, 0, state), Err(refusal));
        assert_eq!(raw::compare(table, state, state, &mut lent), number);
    }
    assert_eq!(lent, numbers(8));
    assert_eq!(table, before);
}

/// Asserts that a check against the bench table refuses a tree, and counts it.
fn refuses_tree(tree: &[u8], refusal: Refusal) {
    let before = tree.to_vec();
    let counts = Counts { accepted: 4, rejected: 5, refused: 6 };
    let checked = check(counts, &bench(), tree);
    assert_eq!(checked.answer, Answer::Refused(refusal));
    assert_eq!(checked.counts, Counts { refused: 7, ..counts });
    let mut lent = numbers(3);
    assert_eq!(raw::check(&mut [0; 3], &bench(), tree, &mut lent), refusal.number());
    assert_eq!(lent, numbers(3));
    assert_eq!(tree, before);
}

/// The bench table with another first record.
fn sized(body: &[u8]) -> Vec<u8> {
    [&record(1, body), &bench()[12..]].concat()
}

/// The bench table with another record of ranks.
fn ranked(body: &[u8]) -> Vec<u8> {
    [&bench()[..12], &record(2, body), &bench()[21..]].concat()
}

/// The bench table with another record of final states.
fn ending(body: &[u8]) -> Vec<u8> {
    [&bench()[..21], &record(3, body), &bench()[29..]].concat()
}

/// The bench table with another last rule.
fn ruled(last: &[u8]) -> Vec<u8> {
    [&bench()[..111], last].concat()
}

/// The bench table with more behind it.
fn followed(more: &[u8]) -> Vec<u8> {
    [&bench(), more].concat()
}

/// Words of document 01's causes, by their numbers.
const WORDS: [[&str; 2]; 13] = [
    ["whole record", "below 2"],
    ["kind", "third record"],
    ["length", "layout"],
    ["256", "1,024"],
    ["symbol", "state"],
    ["final states", "increase"],
    ["too many", "too few"],
    ["kind 16", "even"],
    ["symbol", "tree"],
    ["fewer", "one tree"],
    ["16,384 nodes", "1,024"],
    ["state number", "not below"],
    ["output", "shorter than the result"],
];

#[test]
fn numbers_and_texts() {
    for ((number, refusal), words) in (1..).zip(Refusal::ALL).zip(WORDS) {
        assert_eq!(refusal.number(), number);
        assert_eq!(Refusal::from_number(number), Some(refusal));
        let error: Box<dyn Error> = Box::new(refusal);
        assert!(words.iter().all(|word| error.to_string().contains(word)), "{number}: {error}");
    }
    for number in [0, 14, 100, 101, 257, u32::MAX] {
        assert_eq!(Refusal::from_number(number), None);
    }
}

#[test]
fn cause_1() {
    for length in [1, 5, 11, 13, 22, 30, 110, 112, 124] {
        refuses_table(&bench()[..length], Refusal::BrokenRecord);
    }
    refuses_table(&[0, 0, 0, 0, 1, 0], Refusal::BrokenRecord);
    refuses_table(&[1, 0, 0, 0, 1, 0], Refusal::BrokenRecord);
    refuses_table(&[255, 255, 255, 255, 1, 0], Refusal::BrokenRecord);
    refuses_table(&followed(&[0]), Refusal::BrokenRecord);
}

#[test]
fn cause_2() {
    refuses_table(&[], Refusal::WrongKind);
    refuses_table(&bench()[..12], Refusal::WrongKind);
    refuses_table(&bench()[..21], Refusal::WrongKind);
    refuses_table(&bench()[12..], Refusal::WrongKind);
    refuses_table(&ruled(&record(3, &[])), Refusal::WrongKind);
    refuses_table(&ruled(&record(260, &words(&[A, 0]))), Refusal::WrongKind);
    refuses_table(&followed(&record(16, &[])), Refusal::WrongKind);
}

#[test]
fn cause_3() {
    refuses_table(&sized(&[5, 0, 3, 0, 8]), Refusal::WrongLength);
    refuses_table(&sized(&[5, 0, 3, 0, 8, 0, 0]), Refusal::WrongLength);
    refuses_table(&ranked(&[0, 0]), Refusal::WrongLength);
    refuses_table(&ranked(&[0, 0, 2, 0]), Refusal::WrongLength);
    refuses_table(&ending(&[3, 0, 4]), Refusal::WrongLength);
    refuses_table(&ruled(&record(4, &[0, 0, 0])), Refusal::WrongLength);
    refuses_table(&ruled(&rule(A, &[0], 0)), Refusal::WrongLength);
    refuses_table(&ruled(&rule(F, &[0], 0)), Refusal::WrongLength);
    refuses_table(&ruled(&record(4, &[2, 0, 3, 0, 0, 0, 0])), Refusal::WrongLength);
}

#[test]
fn cause_4() {
    refuses_table(&sized(&words(&[257, 3, 8])), Refusal::AboveLimit);
    refuses_table(&sized(&words(&[5, 257, 8])), Refusal::AboveLimit);
    refuses_table(&sized(&words(&[5, 3, 1025])), Refusal::AboveLimit);
    refuses_table(&ranked(&[0, 0, 9]), Refusal::AboveLimit);
}

#[test]
fn cause_5() {
    refuses_table(&ending(&words(&[5])), Refusal::OutOfRange);
    refuses_table(&ending(&words(&[3, 65_535])), Refusal::OutOfRange);
    refuses_table(&ruled(&rule(3, &[], 0)), Refusal::OutOfRange);
    refuses_table(&ruled(&rule(A, &[], 5)), Refusal::OutOfRange);
    refuses_table(&ruled(&rule(F, &[0, 5], 4)), Refusal::OutOfRange);
    refuses_table(&ruled(&rule(F, &[256, 0], 4)), Refusal::OutOfRange);
}

#[test]
fn cause_6() {
    refuses_table(&ending(&words(&[3, 3])), Refusal::FinalsOutOfOrder);
    refuses_table(&ending(&words(&[0, 4, 3])), Refusal::FinalsOutOfOrder);
}

#[test]
fn cause_7() {
    refuses_table(&followed(&rule(A, &[], 0)), Refusal::WrongRuleCount);
    refuses_table(&ruled(&[]), Refusal::WrongRuleCount);
    refuses_table(&bench()[..29], Refusal::WrongRuleCount);
}

/// Records are read in turn, and the causes within one have an order.
#[test]
fn the_first_cause_in_a_table() {
    refuses_table(&[ranked(&[0, 0, 9]), vec![0]].concat(), Refusal::AboveLimit);
    refuses_table(&[&record(2, &[]), &bench()[12..]].concat(), Refusal::WrongKind);
    refuses_table(&followed(&[1, 0, 0, 0, 4, 0]), Refusal::BrokenRecord);
    refuses_table(&followed(&record(3, &[0])), Refusal::WrongKind);
    refuses_table(&followed(&record(4, &[0])), Refusal::WrongRuleCount);
    refuses_table(&sized(&words(&[257, 3, 8, 0])), Refusal::WrongLength);
    refuses_table(&ranked(&[0, 9]), Refusal::WrongLength);
    refuses_table(&ending(&[9, 0, 9]), Refusal::WrongLength);
    refuses_table(&ending(&words(&[4, 3, 5])), Refusal::OutOfRange);
    refuses_table(&ruled(&record(4, &[9, 0, 9])), Refusal::WrongLength);
    refuses_table(&ruled(&record(4, &[3, 0, 0, 0, 0])), Refusal::OutOfRange);
    refuses_table(&ruled(&rule(F, &[9], 9)), Refusal::WrongLength);
}

#[test]
fn cause_8() {
    let leaf = tree(&[A]);
    refuses_tree(&[], Refusal::NotATree);
    refuses_tree(&leaf[..5], Refusal::NotATree);
    refuses_tree(&leaf[..7], Refusal::NotATree);
    refuses_tree(&[1, 0, 0, 0, 16, 0], Refusal::NotATree);
    refuses_tree(&record(4, &words(&[A])), Refusal::NotATree);
    refuses_tree(&record(272, &words(&[A])), Refusal::NotATree);
    refuses_tree(&record(16, &[0]), Refusal::NotATree);
    refuses_tree(&record(16, &[0, 0, 0]), Refusal::NotATree);
    refuses_tree(&[&leaf[..], &[0]].concat(), Refusal::NotATree);
    refuses_tree(&[&leaf[..], &leaf].concat(), Refusal::NotATree);
}

#[test]
fn cause_9() {
    refuses_tree(&tree(&[3]), Refusal::UnknownSymbol);
    refuses_tree(&tree(&[B, A, 258]), Refusal::UnknownSymbol);
}

#[test]
fn cause_10() {
    refuses_tree(&tree(&[]), Refusal::Unbalanced);
    refuses_tree(&tree(&[F]), Refusal::Unbalanced);
    refuses_tree(&tree(&[A, F]), Refusal::Unbalanced);
    refuses_tree(&tree(&[A, B]), Refusal::Unbalanced);
    refuses_tree(&tree(&[B, A, F, A]), Refusal::Unbalanced);
}

#[test]
fn cause_11() {
    refuses_tree(&tree(&[A; 16_385]), Refusal::TreeAboveLimit);
    refuses_tree(&tree(&[A; 1_025]), Refusal::TreeAboveLimit);
}

/// First the record, then the number of nodes, then node by node, then the end.
#[test]
fn the_first_cause_in_a_tree() {
    refuses_tree(&record(16, &[9; 40_001]), Refusal::NotATree);
    refuses_tree(&tree(&[9; 16_385]), Refusal::TreeAboveLimit);
    refuses_tree(&tree(&[9; 16_384]), Refusal::UnknownSymbol);
    refuses_tree(&tree(&[A, F, 3]), Refusal::Unbalanced);
    refuses_tree(&tree(&[A, 3, F]), Refusal::UnknownSymbol);
    refuses_tree(&tree(&[A; 1_024]), Refusal::Unbalanced);
    refuses_tree(&tree(&[&[A; 1_024][..], &[3]].concat()), Refusal::UnknownSymbol);
    refuses_tree(&tree(&[&[A; 1_025][..], &[3]].concat()), Refusal::TreeAboveLimit);
}

#[test]
fn cause_12() {
    let mut lent = numbers(3);
    for (q, r) in [(5, 0), (0, 5), (5, 5), (256, 0), (0, 65_536), (usize::MAX, usize::MAX)] {
        assert_eq!(compare(&bench(), q, r), Err(Refusal::UnknownState));
        assert_eq!(raw::compare(&bench(), q, r, &mut lent), 12);
    }
    assert_eq!(lent, numbers(3));
    assert_eq!(compare(&table(0, &[], &[], &[]), 0, 0), Err(Refusal::UnknownState));
}

#[test]
fn cause_13() {
    let mut lent = numbers(8);
    for room in [0, 1, 32, 159] {
        let mut out = bytes(room);
        assert_eq!(relate(&bench(), &mut out), Err(Refusal::ShortOutput));
        assert_eq!(raw::relate(&bench(), &mut out, &mut lent), 13);
        assert_eq!(out, bytes(room));
    }
    for room in [0, 1, 24, 62] {
        let mut out = bytes(room);
        assert_eq!(reduce(&bench(), &mut out), Err(Refusal::ShortOutput));
        assert_eq!(raw::reduce(&bench(), &mut out, &mut lent), 13);
        assert_eq!(out, bytes(room));
    }
    // The bench table's report has 38 bytes, that on no bytes 10.
    for (input, room) in [(bench(), 0), (bench(), 37), (vec![], 0), (vec![], 9)] {
        let mut out = bytes(room);
        assert_eq!(report(&input, &mut out), Err(Refusal::ShortOutput));
        assert_eq!(raw::report(&input, &mut out, &mut lent), 13);
        assert_eq!(out, bytes(room));
    }
    assert_eq!(lent, numbers(8));
}
