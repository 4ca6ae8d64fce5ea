use checker::{MAX_RULES, MAX_STATES, MAX_SYMBOLS};

use super::{Drawn, small};
use crate::layout::{RULE, record, words};
use crate::random::Random;

/// Bytes that are no table most often, and a small automaton beside them.
pub fn records(random: &mut Random) -> Drawn {
    let table = match random.below(8) {
        0 => bytes(random, 60),
        1 => any_records(random),
        _ => plausible(random),
    };
    Drawn { table, automaton: small::tiny(random) }
}

fn bytes(random: &mut Random, most: usize) -> Vec<u8> {
    (0..random.between(0, most)).map(|_| random.byte()).collect()
}

/// Records of nearly rising kinds, the last one cut now and then.
fn any_records(random: &mut Random) -> Vec<u8> {
    let mut table = Vec::new();
    for at in 0..random.between(1, 7) {
        let kind = if random.one_in(4) { random.below(6) } else { (at + 1).min(4) };
        let body = bytes(random, 8);
        table.extend(record(kind as u16, &body));
    }
    if random.one_in(4) {
        table.truncate(random.below(table.len() + 1));
    }
    table
}

/// Records of the right kinds and nearly the right lengths, with numbers nearly
/// in range.
fn plausible(random: &mut Random) -> Vec<u8> {
    let states = count(random, MAX_STATES);
    let symbols = count(random, MAX_SYMBOLS);
    let rules = count(random, MAX_RULES);
    let mut table = record(1, &words(&[states, symbols, rules]));
    let ranks: Vec<u8> = (0..near(random, symbols)).map(|_| random.below(3) as u8).collect();
    table.extend(record(2, &ranks));
    let finals: Vec<u16> = (0..random.below(3)).map(|_| near(random, states)).collect();
    table.extend(record(3, &words(&finals)));
    for _ in 0..near(random, rules) {
        let mut body = vec![near(random, symbols), near(random, states)];
        body.extend((0..random.below(3)).map(|_| near(random, states)));
        table.extend(record(RULE, &words(&body)));
    }
    table
}

/// A small number, or one at the limit.
fn count(random: &mut Random, limit: usize) -> u16 {
    let edge = random.one_in(20);
    (if edge { limit - 1 + random.below(3) } else { random.below(4) }) as u16
}

/// A number below `bound` most often, `bound` itself now and then.
fn near(random: &mut Random, bound: u16) -> u16 {
    if bound == 0 || random.one_in(12) { bound } else { random.below(bound.into()) as u16 }
}
