mod common;

use checker::{Automaton, Refusal, Rule};
use common::T;

/// Where the records of T begin.
const RANKS: usize = 12;
const FINALS: usize = 21;
const RULES: usize = 29;
const LAST_RULE: usize = 111;

fn bench() -> Automaton {
    Automaton {
        states: 5,
        ranks: vec![0, 0, 2],
        finals: vec![3],
        rules: vec![
            Rule::new(0, 0, &[]),
            Rule::new(0, 1, &[]),
            Rule::new(0, 2, &[]),
            Rule::new(1, 2, &[]),
            Rule::new(2, 3, &[0, 2]),
            Rule::new(2, 3, &[1, 2]),
            Rule::new(2, 3, &[2, 2]),
            Rule::new(2, 4, &[4, 0]),
        ],
    }
}

fn number(bytes: &[u8]) -> u8 {
    Automaton::read(bytes).map_or_else(Refusal::number, |_| 0)
}

fn changed(place: usize, byte: u8) -> Vec<u8> {
    let mut bytes = T.to_vec();
    bytes[place] = byte;
    bytes
}

#[test]
fn bench_table() {
    let bytes = bench().encode();
    assert_eq!(bytes.len(), 125);
    assert_eq!(bytes[..12], [0x08, 0, 0, 0, 0x01, 0, 0x05, 0, 0x03, 0, 0x08, 0]);
    assert_eq!(bytes, T);
    assert_eq!(Automaton::read(&T), Ok(bench()));
}

#[test]
fn shortest_table() {
    let empty = Automaton { states: 0, ranks: vec![], finals: vec![], rules: vec![] };
    let bytes = empty.encode();
    assert_eq!(bytes.len(), 24);
    assert_eq!(Automaton::read(&bytes), Ok(empty));
}

#[test]
fn longest_table() {
    let rule = |i: u16| Rule::new(i % 256, 255 - i % 256, &[i % 251; 8]);
    let longest = Automaton {
        states: 256,
        ranks: vec![8; 256],
        finals: (0..256).collect(),
        rules: (0..1024).map(rule).collect(),
    };
    let bytes = longest.encode();
    assert_eq!(bytes.len(), 27_416);
    assert_eq!(Automaton::read(&bytes), Ok(longest));
}

#[test]
fn writing_leaves_the_bytes_behind() {
    let mut out = [170; 141];
    assert_eq!(bench().write(&mut out), Ok(125));
    assert_eq!(out[..125], T);
    assert_eq!(out[125..], [170; 16]);
}

#[test]
fn a_short_output_stays() {
    let mut out = [170; 124];
    assert_eq!(bench().write(&mut out), Err(Refusal::ShortOutput));
    assert_eq!(Refusal::ShortOutput.number(), 13);
    assert_eq!(out, [170; 124]);
}

#[test]
fn broken_record() {
    assert_eq!(number(&T[..1]), 1);
    assert_eq!(number(&T[..124]), 1);
    assert_eq!(number(&[&T[..], &[6]].concat()), 1);
    assert_eq!(number(&changed(RULES, 1)), 1);
}

#[test]
fn wrong_kind() {
    assert_eq!(number(&[]), 2);
    assert_eq!(number(&T[..RANKS]), 2);
    assert_eq!(number(&T[..FINALS]), 2);
    assert_eq!(number(&changed(4, 2)), 2);
    assert_eq!(number(&changed(LAST_RULE + 5, 1)), 2);
    assert_eq!(number(&[&T[..], &T[FINALS..RULES]].concat()), 2);
}

#[test]
fn wrong_length() {
    let odd_finals = [&T[..FINALS], &[5, 0, 0, 0, 3, 0, 9, 0, 0][..]].concat();
    assert_eq!(number(&odd_finals), 3);
    let short_rule = [&T[..RULES], &[5, 0, 0, 0, 4, 0, 9, 0, 9][..]].concat();
    assert_eq!(number(&short_rule), 3);
    // The rule's symbol gets another rank.
    assert_eq!(number(&changed(LAST_RULE + 6, 1)), 3);
}

#[test]
fn above_limit() {
    // 261 states, 259 symbols, 1,032 rules, rank 9.
    assert_eq!(number(&changed(7, 1)), 4);
    assert_eq!(number(&changed(9, 1)), 4);
    assert_eq!(number(&changed(11, 4)), 4);
    assert_eq!(number(&changed(RANKS + 6, 9)), 4);
    // Rank 8 passes; the first rule then is too short.
    assert_eq!(number(&changed(RANKS + 6, 8)), 3);
}

#[test]
fn out_of_range() {
    assert_eq!(number(&changed(FINALS + 6, 4)), 0);
    assert_eq!(number(&changed(FINALS + 6, 5)), 5);
    // The symbol, the target, the last child.
    assert_eq!(number(&changed(LAST_RULE + 6, 3)), 5);
    assert_eq!(number(&changed(LAST_RULE + 8, 5)), 5);
    assert_eq!(number(&changed(LAST_RULE + 13, 1)), 5);
}

#[test]
fn finals_out_of_order() {
    let finals = |states: &[u8]| {
        let body: Vec<u8> = states.iter().flat_map(|&state| [state, 0]).collect();
        let head = [2 + body.len() as u8, 0, 0, 0, 3, 0];
        number(&[&T[..FINALS], &head, &body, &T[RULES..]].concat())
    };
    assert_eq!(finals(&[0, 3, 4]), 0);
    assert_eq!(finals(&[3, 3]), 6);
    assert_eq!(finals(&[0, 4, 3]), 6);
    assert_eq!(finals(&[4, 3, 5]), 5);
}

#[test]
fn wrong_rule_count() {
    assert_eq!(number(&T[..RULES]), 7);
    assert_eq!(number(&T[..LAST_RULE]), 7);
    assert_eq!(number(&changed(10, 9)), 7);
    assert_eq!(number(&[&T[..], &T[LAST_RULE..]].concat()), 7);
    assert_eq!(number(&[&T[..], &[2, 0, 0, 0, 4, 0][..]].concat()), 7);
}
