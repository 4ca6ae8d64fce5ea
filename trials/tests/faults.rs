//! The comparison finds faults, and shrinks the cases that show them.

mod faulty;

use faulty::{Fault, Faulty};
use trials::{Call, Case, Kind, Library, Tally, draw, run, shrink};

const SEED: u64 = 1;

/// Within how many cases a fault is found.
const CASES: u64 = 4_000;

fn kind(fault: Fault, case: &Case) -> Option<Kind> {
    let library = Faulty::new(fault);
    run(&library, case, &mut Tally::default()).err().map(|disagreement| disagreement.kind)
}

fn size(case: &Case) -> usize {
    let trees = case.calls.iter().map(|call| match call {
        Call::Check { tree, .. } => tree.len(),
        _ => 0,
    });
    case.table.len() + case.calls.len() + trees.sum::<usize>()
}

/// The first case that shows a fault as this kind, made small.
fn small_case(fault: Fault, expected: Kind) -> Case {
    let shows = |case: &Case| kind(fault, case) == Some(expected);
    let case = (0..CASES).map(|number| draw(SEED, number)).find(shows);
    let case = case.unwrap_or_else(|| panic!("{fault:?} is not found as {expected:?}"));
    let small = shrink(&case, shows);
    assert!(shows(&small), "{fault:?}");
    assert!(size(&small) < size(&case), "{fault:?}: not made smaller\n{case}{small}");
    small
}

/// Looks for a fault in a part of a call's outcome. The small case has at most
/// one call and a table of at most `table` bytes.
fn finds(fault: Fault, call: &'static str, part: &'static str, table: usize) {
    let small = small_case(fault, Kind { call, part });
    assert!(small.calls.len() <= 1, "{fault:?}: {} calls\n{small}", small.calls.len());
    assert!(small.table.len() <= table, "{fault:?}: {} bytes\n{small}", small.table.len());
}

#[test]
fn counts() {
    finds(Fault::AcceptedTwice, "check", "counts", 40);
    finds(Fault::CountWraps, "check", "counts", 40);
    finds(Fault::RefusalNotCounted, "check", "counts", 40);
}

#[test]
fn bytes_behind_the_result() {
    finds(Fault::ByteBehindReduced, "reduce", "output", 40);
    finds(Fault::ByteBehindRelation, "relate", "output", 24);
    finds(Fault::ByteBehindReport, "report", "output", 24);
    finds(Fault::NumberBehind, "judge", "numbers", 24);
}

#[test]
fn rounds() {
    finds(Fault::RoundsOfRelation, "relate", "numbers", 24);
    finds(Fault::RoundsOfReduction, "reduce", "numbers", 24);
}

#[test]
fn results() {
    finds(Fault::RuleLeftOut, "reduce", "output", 40);
    finds(Fault::PairLeftOut, "relate", "output", 24);
    finds(Fault::WideRuleForgotten, "check", "answer", 64);
}

#[test]
fn refusals() {
    finds(Fault::NumbersExchanged, "judge", "answer", 40);
    finds(Fault::StateCutTo16Bits, "compare", "answer", 40);
    finds(Fault::ReportOfAllBytes, "report", "output", 24);
    finds(Fault::OneNodeTooMany, "check", "answer", 64);
    finds(Fault::NodeLimitInWalk, "check", "answer", 64);
    finds(Fault::PlaceBeforeSymbol, "check", "answer", 64);
    finds(Fault::EmptyStackAnswered, "check", "answer", 64);
}

#[test]
fn memory_after_a_refusal() {
    finds(Fault::OutputAfterRefusal, "reduce", "output", 24);
    finds(Fault::NumberAfterShort, "relate", "numbers", 24);
}

#[test]
fn memory_that_is_not_lent_for_writing() {
    finds(Fault::ByteBeyondOutput, "reduce", "guards", 24);
    finds(Fault::TreeWritten, "check", "inputs", 40);
}

#[test]
fn rules_of_a_pair() {
    finds(Fault::MatchedRule, "compare", "rule", 80);
}

#[test]
fn reduced_tables() {
    finds(Fault::ReducedTableRejects, "check", "reduced table", 60);
    finds(Fault::WholeTreeOfReduced, "check", "reduced table's subtree", 60);
}

#[test]
fn subtrees() {
    finds(Fault::NodeFromOne, "check", "numbers", 40);
    finds(Fault::SizeWithoutTop, "check", "numbers", 40);
    finds(Fault::LastSubtree, "check", "numbers", 40);
    finds(Fault::WholeTree, "check", "numbers", 40);
    finds(Fault::SubtreeWithoutFinal, "check", "numbers", 60);
    finds(Fault::SubtreeOfReduced, "check", "numbers", 60);
}

#[test]
fn numbers_of_a_check_that_stay() {
    finds(Fault::SubtreeOfAccepted, "check", "numbers", 40);
    finds(Fault::SubtreeOfRefused, "check", "numbers", 40);
    finds(Fault::NumberBehindSubtree, "check", "numbers", 40);
    finds(Fault::CountedWhenShort, "check", "counts", 40);
    finds(Fault::SubtreeWhenShort, "check", "numbers", 40);
}

#[test]
fn the_checker_agrees_with_itself_and_gives_every_answer() {
    let mut tally = Tally::default();
    for number in 0..CASES {
        let found = run(&trials::Plain, &draw(SEED, number), &mut tally);
        assert!(found.is_ok(), "case {number}: {}", found.unwrap_err());
    }
    let of_tables = [1, 2, 3, 4, 5, 6, 7];
    let answers = [
        ("judge", &[0, 100][..], &of_tables[..]),
        ("check", &[0, 8, 9, 10, 11, 100, 101], &of_tables),
        ("relate", &[0, 13, 100], &of_tables),
        ("compare", &[0, 12, 100, 101], &of_tables),
        ("reduce", &[0, 13, 100], &of_tables),
        ("report", &[0, 13, 100], &[]),
    ];
    for (call, own, of_table) in answers {
        for &answer in own.iter().chain(of_table) {
            assert!(tally.answered(call, answer) > 0, "{call} never answers {answer}");
        }
    }
    let named = [tally.smaller_subtrees, tally.whole_trees, tally.other_subtrees];
    assert!(named.iter().all(|&count| count > CASES / 20), "{named:?}");
}

#[test]
fn the_proved_library_agrees() {
    agrees(&trials::Proved, 500);
}

#[test]
fn the_swift_library_agrees() {
    agrees(&trials::Swift, 10_000);
}

/// A library does what the checker does on so many cases.
fn agrees(library: &dyn Library, cases: u64) {
    let mut tally = Tally::default();
    for number in 0..cases {
        let found = run(library, &draw(SEED, number), &mut tally);
        assert!(found.is_ok(), "case {number}: {}", found.unwrap_err());
    }
}
