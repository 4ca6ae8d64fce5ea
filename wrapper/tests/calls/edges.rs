//! The limits, each met and each passed by one.

use crate::layout::*;
use fensullay::{
    Answer, Counts, RELATION_ROW, Reduction, Refusal, Relation, Size, TABLE_MAX, check, judge,
    reduced, relate, report_lines,
};

#[test]
fn zero_bytes() {
    assert_eq!(judge(&[]), Err(Refusal::WrongKind));
    assert_eq!(Refusal::WrongKind.number(), 2);
    assert_eq!(report_lines(&[]), "refused 2\n");
}

#[test]
fn states() {
    let most = table(256, &[], &[0, 255], &[]);
    assert_eq!(judge(&most), Ok(Size { states: 256, symbols: 0, rules: 0 }));
    assert_eq!(judge(&table(257, &[], &[], &[])), Err(Refusal::AboveLimit));
    assert_eq!(Refusal::AboveLimit.number(), 4);
}

#[test]
fn symbols() {
    let most = table(0, &[8; 256], &[], &[]);
    assert_eq!(judge(&most), Ok(Size { states: 0, symbols: 256, rules: 0 }));
    assert_eq!(judge(&table(0, &[8; 257], &[], &[])), Err(Refusal::AboveLimit));
}

#[test]
fn rules() {
    let rules = |count: usize| table(1, &[0], &[0], &vec![rule(0, &[], 0); count]);
    assert_eq!(judge(&rules(1024)), Ok(Size { states: 1, symbols: 1, rules: 1024 }));
    assert_eq!(judge(&rules(1025)), Err(Refusal::AboveLimit));
}

#[test]
fn rank() {
    let most = table(1, &[0, 8], &[0], &[rule(0, &[], 0), rule(1, &[0; 8], 0)]);
    assert_eq!(judge(&most), Ok(Size { states: 1, symbols: 2, rules: 2 }));
    let eight_leaves = tree(&[0, 0, 0, 0, 0, 0, 0, 0, 1]);
    assert_eq!(check(Counts::fresh(), &most, &eight_leaves).answer, Answer::Accepted);
    assert_eq!(judge(&table(1, &[0, 9], &[0], &[])), Err(Refusal::AboveLimit));
}

#[test]
fn nodes() {
    let chains = table(1, &[0, 1], &[0], &[rule(0, &[], 0), rule(1, &[0], 0)]);
    let answer = |nodes: usize| {
        let mut symbols = vec![1; nodes];
        symbols[0] = 0;
        check(Counts::fresh(), &chains, &tree(&symbols)).answer
    };
    assert_eq!(answer(16_384), Answer::Accepted);
    assert_eq!(answer(16_385), Answer::Refused(Refusal::TreeAboveLimit));
    assert_eq!(Refusal::TreeAboveLimit.number(), 11);
}

#[test]
fn waiting() {
    let pairs = table(1, &[0, 2], &[0], &[rule(0, &[], 0), rule(1, &[0, 0], 0)]);
    let answer = |leaves: usize| {
        let symbols = [vec![0; leaves], vec![1; leaves - 1]].concat();
        check(Counts::fresh(), &pairs, &tree(&symbols)).answer
    };
    assert_eq!(answer(1_024), Answer::Accepted);
    assert_eq!(answer(1_025), Answer::Refused(Refusal::TreeAboveLimit));
}

#[test]
fn longest_table() {
    let longest = longest();
    assert_eq!(longest.len(), TABLE_MAX);
    assert_eq!(judge(&longest), Ok(Size { states: 256, symbols: 256, rules: 1024 }));
    let nothing_left = Reduction {
        length: 280,
        old_states: 256,
        new_states: 0,
        old_rules: 1024,
        new_rules: 0,
        rounds: 0,
    };
    assert_eq!(reduced(&longest), Ok((table(0, &[8; 256], &[], &[]), nothing_left)));
    assert_eq!(report_lines(&longest), "reduced\nstates 256 0\nrules 1024 0\nrounds 0\n");
}

#[test]
fn the_report_looks_at_the_first_bytes() {
    let too_many = [longest(), rule(0, &[0; 8], 0)].concat();
    assert_eq!(judge(&too_many), Err(Refusal::WrongRuleCount));
    assert_eq!(report_lines(&too_many), "refused 1\n");
    assert_eq!(report_lines(&too_many[..27_417]), "refused 1\n");
}

/// Without a rule, every state is simulated by every other.
#[test]
fn largest_relation() {
    let bare = table(256, &[], &[], &[]);
    let size = 256 * RELATION_ROW;
    let mut out = bytes(size + 5);
    assert_eq!(relate(&bare, &mut out), Ok(Relation { rounds: 0, pairs: 65_536 }));
    assert_eq!(out, begun(&vec![255; size], bytes(size + 5)));
}

#[test]
fn no_states() {
    let shortest = table(0, &[], &[], &[]);
    assert_eq!(relate(&shortest, &mut []), Ok(Relation { rounds: 0, pairs: 0 }));
}
