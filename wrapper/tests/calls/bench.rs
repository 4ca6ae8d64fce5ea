//! Document 01's bench table T and its results B1 to B12.

use crate::layout::*;
use fensullay::{
    Answer, Comparison, Counts, Reduction, Refusal, Relation, Size, check, compare, judge, reduce,
    reduced, relate, report, report_lines,
};

const REPORT: &str = "reduced\nstates 5 2\nrules 8 3\nrounds 1\n";

fn answer(tree: &[u8]) -> Answer {
    check(Counts::fresh(), &bench(), tree).answer
}

#[test]
fn bench_table() {
    let table = bench();
    assert_eq!(table.len(), 125);
    let start = [0x08, 0x00, 0x00, 0x00, 0x01, 0x00, 0x05, 0x00, 0x03, 0x00, 0x08, 0x00];
    assert_eq!(table[..12], start);
    assert_eq!(judge(&table), Ok(Size { states: 5, symbols: 3, rules: 8 }));
}

#[test]
fn bench_report() {
    assert_eq!(report_lines(&bench()), REPORT);
    let mut out = bytes(80);
    assert_eq!(report(&bench(), &mut out), Ok(REPORT.len()));
    assert_eq!(out, begun(REPORT.as_bytes(), bytes(80)));
}

#[test]
fn b1() {
    let expected = bench_reduced();
    assert_eq!(expected.len(), 63);
    let reduction = Reduction {
        length: 63,
        old_states: 5,
        new_states: 2,
        old_rules: 8,
        new_rules: 3,
        rounds: 1,
    };
    for room in [63, 64, 125, 200] {
        let mut out = bytes(room);
        assert_eq!(reduce(&bench(), &mut out), Ok(reduction));
        assert_eq!(out, begun(&expected, bytes(room)));
    }
    assert_eq!(reduced(&bench()), Ok((expected, reduction)));
}

#[test]
fn b2() {
    let mut rows = [0; 160];
    for (state, simulating) in [0b111, 0b111, 0b100, 0b1000, 0b10000].into_iter().enumerate() {
        rows[32 * state] = simulating;
    }
    for room in [160, 161, 192] {
        let mut out = bytes(room);
        assert_eq!(relate(&bench(), &mut out), Ok(Relation { rounds: 2, pairs: 9 }));
        assert_eq!(out, begun(&rows, bytes(room)));
    }
}

#[test]
fn b3() {
    assert_eq!(compare(&bench(), 2, 0), Ok(Comparison::Rule(3)));
}

#[test]
fn b4() {
    assert_eq!(compare(&bench(), 0, 2), Ok(Comparison::Yes));
}

#[test]
fn b5() {
    let compared = compare(&bench(), 3, 4);
    assert!(matches!(compared, Ok(Comparison::Rule(4..=6))), "{compared:?}");
}

#[test]
fn b6() {
    assert_eq!(answer(&tree(&[B, A, F])), Answer::Accepted);
}

#[test]
fn b7() {
    assert_eq!(answer(&tree(&[A])), rejected(0, 1));
}

#[test]
fn b8() {
    assert_eq!(answer(&tree(&[A, A, F, A, F])), rejected(4, 5));
}

#[test]
fn b9() {
    assert_eq!(answer(&tree(&[F])), Answer::Refused(Refusal::Unbalanced));
    assert_eq!(Refusal::Unbalanced.number(), 10);
}

#[test]
fn b10() {
    assert_eq!(answer(&tree(&[])), Answer::Refused(Refusal::Unbalanced));
    assert_eq!(answer(&tree(&[3])), Answer::Refused(Refusal::UnknownSymbol));
    assert_eq!(Refusal::UnknownSymbol.number(), 9);
}

#[test]
fn b11() {
    let shortest = table(0, &[], &[], &[]);
    assert_eq!(shortest.len(), 24);
    let nothing = Reduction {
        length: 24,
        old_states: 0,
        new_states: 0,
        old_rules: 0,
        new_rules: 0,
        rounds: 0,
    };
    assert_eq!(reduced(&shortest), Ok((shortest.clone(), nothing)));
}

#[test]
fn b12() {
    let rules = [
        rule(0, &[], 0),
        rule(1, &[], 1),
        rule(2, &[0, 1], 2),
        rule(2, &[0, 0], 3),
        rule(2, &[1, 1], 3),
    ];
    let crossed = table(4, &[0, 0, 2], &[], &rules);
    // State 2 has no other rule to name.
    assert_eq!(compare(&crossed, 2, 3), Ok(Comparison::Rule(2)));
}

/// An answer but for the subtree: whether the tree is accepted, or the refusal.
fn kind(answer: Answer) -> Result<bool, Refusal> {
    match answer {
        Answer::Accepted => Ok(true),
        Answer::Rejected(_) => Ok(false),
        Answer::Refused(refusal) => Err(refusal),
    }
}

/// T accepts f(x, y) with leaves x and y, and nothing else: so does its reduction.
#[test]
fn both_tables_accept_the_same_trees() {
    let (table, shorter) = (bench(), bench_reduced());
    let mut all = vec![vec![]];
    for _ in 0..5 {
        let longer = |nodes: &Vec<u16>| [A, B, F].map(|symbol| [&nodes[..], &[symbol]].concat());
        all = all.iter().flat_map(longer).collect();
        for nodes in &all {
            let before = check(Counts::fresh(), &table, &tree(nodes));
            let after = check(Counts::fresh(), &shorter, &tree(nodes));
            assert_eq!(before.counts, after.counts, "{nodes:?}");
            assert_eq!(kind(before.answer), kind(after.answer), "{nodes:?}");
            let two_leaves = matches!(nodes[..], [A | B, A | B, F]);
            assert_eq!(before.answer == Answer::Accepted, two_leaves, "{nodes:?}");
        }
    }
}

#[test]
fn a_reduced_table_reduces_to_itself() {
    let table = bench_reduced();
    let (again, reduction) = reduced(&table).unwrap();
    assert_eq!(again, table);
    assert_eq!((reduction.length, reduction.new_states, reduction.new_rules), (63, 2, 3));
}
