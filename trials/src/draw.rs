use checker::MAX_INPUT;

use crate::library::{
    CHECK_COUNTS, CHECK_NUMBERS, COMPARE_NUMBERS, JUDGE_NUMBERS, REDUCE_NUMBERS, RELATE_NUMBERS,
    REPORT_NUMBERS,
};
use crate::random::Random;
use crate::tables::Drawn;
use crate::trees::{Trees, at_limit};
use crate::{Call, Case, Family};

/// Shorter than every result.
const EMPTY: isize = -(MAX_INPUT as isize);

/// The case of this number of a seed.
pub fn draw(seed: u64, number: u64) -> Case {
    let mut random = Random::of_case(seed, number);
    let family = Family::draw(&mut random);
    let drawn = family.table(&mut random);
    let mut calls = checks(&mut random, family, &drawn);
    calls.extend(queries(&mut random, &drawn));
    Case { family, table: drawn.table, calls, fill: random.draw() }
}

fn checks(random: &mut Random, family: Family, drawn: &Drawn) -> Vec<Call> {
    let trees = Trees::new(&drawn.automaton);
    let mut check = || {
        let tree = if family == Family::Trees { at_limit(random) } else { trees.draw(random) };
        let numbers = array_length(random, CHECK_NUMBERS);
        Call::Check { counts: counts(random), tree, numbers }
    };
    (0..3).map(|_| check()).collect()
}

/// Three counts, at the ceiling now and then; one in sixteen times less or more
/// than three.
fn counts(random: &mut Random) -> Vec<u32> {
    let count = |random: &mut Random| match random.below(6) {
        0 => u32::MAX,
        1 => u32::MAX - 1,
        2 => random.draw() as u32,
        _ => random.below(3) as u32,
    };
    (0..array_length(random, CHECK_COUNTS)).map(|_| count(random)).collect()
}

fn queries(random: &mut Random, drawn: &Drawn) -> Vec<Call> {
    let states = drawn.automaton.states;
    let mut calls = vec![
        Call::Judge { numbers: array_length(random, JUDGE_NUMBERS) },
        Call::Relate { room: room(random), numbers: array_length(random, RELATE_NUMBERS) },
        Call::Reduce { room: room(random), numbers: array_length(random, REDUCE_NUMBERS) },
    ];
    for _ in 0..2 {
        let (q, r) = (state(random, states), state(random, states));
        calls.push(Call::Compare { q, r, numbers: array_length(random, COMPARE_NUMBERS) });
    }
    if random.one_in(2) {
        let length = filled_length(random, drawn.table.len());
        let (room, numbers) = (room(random), array_length(random, REPORT_NUMBERS));
        calls.push(Call::Report { length, room, numbers });
    }
    calls
}

/// The length of an array for numbers: what the call needs, or more, or less.
fn array_length(random: &mut Random, needed: usize) -> usize {
    match random.below(16) {
        0 => random.below(needed),
        1..4 => needed + random.between(1, 3),
        _ => needed,
    }
}

/// By how much the output is longer than the result.
fn room(random: &mut Random) -> isize {
    match random.below(16) {
        0..6 => 0,
        6..12 => random.between(1, 40) as isize,
        12 | 13 => -1,
        14 => -(random.between(2, 40) as isize),
        _ => EMPTY,
    }
}

/// A state most often, or a number that is none.
fn state(random: &mut Random, states: usize) -> usize {
    if states > 0 && !random.one_in(16) {
        return random.below(states);
    }
    let wrapped = (1 << random.pick(&[8, 16, 32])) + random.below(states + 1);
    random.pick(&[states, states + 1, 255, 256, wrapped, usize::MAX])
}

/// Up to which length a table that is reported on is filled: not at all most
/// often, by a few bytes, or about as far as a report looks.
fn filled_length(random: &mut Random, table: usize) -> usize {
    match random.below(100) {
        0 => MAX_INPUT - 1 + random.below(4),
        1..8 => table + random.between(1, 30),
        _ => 0,
    }
}
