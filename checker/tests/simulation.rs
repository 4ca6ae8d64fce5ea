mod common;

use checker::{Automaton, Pair, Refusal, Rule, Simulation};
use common::T;

fn bench() -> Automaton {
    Automaton::read(&T).expect("the bench table")
}

fn automaton(states: usize, ranks: &[u8], rules: Vec<Rule>) -> Automaton {
    Automaton { states, ranks: ranks.to_vec(), finals: vec![], rules }
}

#[test]
fn b2_to_b5() {
    let bench = bench();
    let simulation = Simulation::of(&bench);
    assert_eq!((simulation.rounds(), simulation.pairs()), (2, 9));
    assert_eq!(simulation.pair(2, 0), Ok(Pair::Rule(3)));
    assert_eq!(simulation.pair(0, 2), Ok(Pair::Yes));
    assert_eq!(simulation.pair(3, 4), Ok(Pair::Rule(4)));
}

#[test]
fn b12() {
    let rules = vec![
        Rule::new(0, 0, &[]),
        Rule::new(1, 1, &[]),
        Rule::new(2, 2, &[0, 1]),
        Rule::new(2, 3, &[0, 0]),
        Rule::new(2, 3, &[1, 1]),
    ];
    let crossed = automaton(4, &[0, 0, 2], rules);
    let simulation = Simulation::of(&crossed);
    assert_eq!(simulation.pair(2, 3), Ok(Pair::Rule(2)));
    assert_eq!((simulation.rounds(), simulation.pairs()), (2, 4));
}

#[test]
fn rows_of_bits() {
    let bench = bench();
    let simulation = Simulation::of(&bench);
    let mut out = [170; 163];
    assert_eq!(simulation.write(&mut out), Ok(()));
    for (row, bits) in out.chunks(32).zip([7, 7, 4, 8, 16]) {
        assert_eq!(row[0], bits);
        assert_eq!(row[1..], [0; 31]);
    }
    assert_eq!(out[160..], [170; 3]);
    assert_eq!(simulation.write(&mut [0; 160]), Ok(()));
}

#[test]
fn a_short_output_stays() {
    let bench = bench();
    let mut out = [170; 159];
    assert_eq!(Simulation::of(&bench).write(&mut out), Err(Refusal::ShortOutput));
    assert_eq!(out, [170; 159]);
}

#[test]
fn unknown_states() {
    let bench = bench();
    let simulation = Simulation::of(&bench);
    for (left, right) in [(5, 0), (0, 5), (5, 5), (256, 0), (0, 65_535)] {
        assert_eq!(simulation.pair(left, right), Err(Refusal::UnknownState));
    }
    assert_eq!(Refusal::UnknownState.number(), 12);
}

#[test]
fn no_states() {
    let empty = automaton(0, &[], vec![]);
    let simulation = Simulation::of(&empty);
    assert_eq!((simulation.rounds(), simulation.pairs()), (0, 0));
    assert_eq!(simulation.write(&mut []), Ok(()));
    assert_eq!(simulation.pair(0, 0), Err(Refusal::UnknownState));
}

#[test]
fn all_states() {
    let bare = automaton(256, &[], vec![]);
    let simulation = Simulation::of(&bare);
    assert_eq!((simulation.rounds(), simulation.pairs()), (0, 65_536));
    let mut out = [0; 8_192];
    assert_eq!(simulation.write(&mut out), Ok(()));
    assert_eq!(out, [255; 8_192]);
}

#[test]
fn a_state_without_rules_is_simulated_by_all() {
    let rules = vec![Rule::new(0, 0, &[]), Rule::new(1, 2, &[1])];
    let partial = automaton(3, &[0, 1], rules);
    let simulation = Simulation::of(&partial);
    assert_eq!((simulation.rounds(), simulation.pairs()), (1, 5));
    assert!((0..3).all(|right| simulation.pair(1, right) == Ok(Pair::Yes)));
}

/// Each round tells one more state of a chain apart, however it is numbered.
#[test]
fn chains() {
    for states in [1, 2, 60, 70] {
        let last = states as u16 - 1;
        let forth = (0..last).map(|i| Rule::new(0, i + 1, &[i])).collect();
        let back = (0..last).map(|i| Rule::new(0, i, &[i + 1])).collect();
        for rules in [forth, back] {
            let chain = automaton(states, &[1], rules);
            let simulation = Simulation::of(&chain);
            assert_eq!(simulation.rounds(), states - 1);
            assert_eq!(simulation.pairs(), states * (states + 1) / 2);
        }
    }
}

/// A state of a cycle of 7 against one of a cycle of 9 fails where both come
/// to their first state at once, after up to 62 steps.
#[test]
fn more_rounds_than_states() {
    let mut rules = vec![Rule::new(0, 0, &[])];
    rules.extend((8..16).map(|state| Rule::new(0, state, &[])));
    rules.extend((0..7).map(|i| Rule::new(1, (i + 1) % 7, &[i])));
    rules.extend((0..9).map(|i| Rule::new(1, 7 + (i + 1) % 9, &[7 + i])));
    let cycles = automaton(16, &[0, 1], rules);
    let simulation = Simulation::of(&cycles);
    assert_eq!((simulation.rounds(), simulation.pairs()), (63, 16));
}
