//! The counts of a check.

use crate::layout::*;
use fensullay::{Answer, Counts, Refusal, check};

fn counts(accepted: u32, rejected: u32, refused: u32) -> Counts {
    Counts { accepted, rejected, refused }
}

#[test]
fn fresh() {
    assert_eq!(Counts::fresh(), counts(0, 0, 0));
    assert_eq!(Counts::default(), Counts::fresh());
}

#[test]
fn each_answer_counts_one() {
    let table = bench();
    let shape = Answer::Refused(Refusal::Unbalanced);
    let steps = [
        (tree(&[B, A, F]), Answer::Accepted, counts(1, 0, 0)),
        (tree(&[A]), rejected(0, 1), counts(1, 1, 0)),
        (tree(&[]), shape, counts(1, 1, 1)),
        (tree(&[F]), shape, counts(1, 1, 2)),
        (tree(&[A, A, F]), Answer::Accepted, counts(2, 1, 2)),
        (tree(&[A, A, F, A, F]), rejected(4, 5), counts(2, 2, 2)),
    ];
    let mut before = Counts::fresh();
    for (tree, answer, after) in steps {
        let checked = check(before, &table, &tree);
        assert_eq!((checked.answer, checked.counts), (answer, after));
        before = checked.counts;
    }
    let refused_table = check(before, &[], &tree(&[A]));
    assert_eq!(refused_table.answer, Answer::Refused(Refusal::WrongKind));
    assert_eq!(refused_table.counts, counts(2, 2, 3));
}

#[test]
fn a_full_count_stays() {
    const FULL: u32 = 4_294_967_295;
    let table = bench();
    let after = |before: Counts, nodes: &[u16]| check(before, &table, &tree(nodes)).counts;
    let (accepted, rejected, refused): (&[u16], &[u16], &[u16]) = (&[B, A, F], &[A], &[F]);

    assert_eq!(after(counts(FULL - 1, 5, 6), accepted), counts(FULL, 5, 6));
    assert_eq!(after(counts(FULL, 5, 6), accepted), counts(FULL, 5, 6));
    assert_eq!(after(counts(4, FULL - 1, 6), rejected), counts(4, FULL, 6));
    assert_eq!(after(counts(4, FULL, 6), rejected), counts(4, FULL, 6));
    assert_eq!(after(counts(4, 5, FULL - 1), refused), counts(4, 5, FULL));
    assert_eq!(after(counts(4, 5, FULL), refused), counts(4, 5, FULL));

    // A full count does not hold up the others.
    assert_eq!(after(counts(FULL, FULL, 6), refused), counts(FULL, FULL, 7));
}
