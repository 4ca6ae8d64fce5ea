//! Tables and trees written record by record, and memory whose changes show.

use fensullay::{Answer, Subtree};

pub const A: u16 = 0;
pub const B: u16 = 1;
pub const F: u16 = 2;

/// Numbers of two bytes each.
pub fn words(numbers: &[u16]) -> Vec<u8> {
    numbers.iter().flat_map(|number| number.to_le_bytes()).collect()
}

pub fn record(kind: u16, body: &[u8]) -> Vec<u8> {
    let mut bytes = Vec::from((body.len() as u32 + 2).to_le_bytes());
    bytes.extend(kind.to_le_bytes());
    bytes.extend(body);
    bytes
}

/// The record of the rule `symbol(children) -> target`.
pub fn rule(symbol: u16, children: &[u16], target: u16) -> Vec<u8> {
    record(4, &words(&[&[symbol, target], children].concat()))
}

/// The table of these records of rules.
pub fn table(states: u16, ranks: &[u8], finals: &[u16], rules: &[Vec<u8>]) -> Vec<u8> {
    let size = [states, ranks.len() as u16, rules.len() as u16];
    let mut bytes = record(1, &words(&size));
    bytes.extend(record(2, ranks));
    bytes.extend(record(3, &words(finals)));
    bytes.extend(rules.concat());
    bytes
}

/// The tree of these nodes in postfix order.
pub fn tree(nodes: &[u16]) -> Vec<u8> {
    record(16, &words(nodes))
}

/// The rules of document 01's bench table.
pub fn bench_rules() -> Vec<Vec<u8>> {
    vec![
        rule(A, &[], 0),
        rule(A, &[], 1),
        rule(A, &[], 2),
        rule(B, &[], 2),
        rule(F, &[0, 2], 3),
        rule(F, &[1, 2], 3),
        rule(F, &[2, 2], 3),
        rule(F, &[4, 0], 4),
    ]
}

/// Document 01's bench table, T.
pub fn bench() -> Vec<u8> {
    table(5, &[0, 0, 2], &[3], &bench_rules())
}

/// The bench table reduced, as B1 gives it.
pub fn bench_reduced() -> Vec<u8> {
    table(2, &[0, 0, 2], &[1], &[rule(A, &[], 0), rule(B, &[], 0), rule(F, &[0, 0], 1)])
}

/// The longest table: no symbol of rank 0, so no tree belongs to a state.
pub fn longest() -> Vec<u8> {
    let finals: Vec<u16> = (0..256).collect();
    let rules: Vec<Vec<u8>> =
        (0..1024).map(|i| rule(i % 256, &[i % 255; 8], 255 - i % 256)).collect();
    table(256, &[8; 256], &finals, &rules)
}

/// The answer for a tree that is not accepted.
pub fn rejected(node: usize, size: usize) -> Answer {
    Answer::Rejected(Subtree { node, size })
}

/// Bytes to lend, of which no two neighbours are equal.
pub fn bytes(length: usize) -> Vec<u8> {
    (0..length).map(|i| (i * 37 + 170) as u8).collect()
}

/// Numbers to lend, greater than any that a call answers.
pub fn numbers(length: usize) -> Vec<usize> {
    (0..length).map(|i| 1_000_000 + i).collect()
}

/// What `lent` is once `result` stands at its start.
pub fn begun<T: Copy>(result: &[T], mut lent: Vec<T>) -> Vec<T> {
    lent[..result.len()].copy_from_slice(result);
    lent
}
