//! The arrays for numbers and counts: too short for a call, and longer than it needs.

use crate::layout::*;
use crate::raw;
use fensullay::sys::{NO, OK, SHORT};

const BENCH_REPORT: &[u8] = b"reduced\nstates 5 2\nrules 8 3\nrounds 1\n";

/// Tables that are fine and refused: an array that is too short is found before either.
fn tables() -> [Vec<u8>; 3] {
    [bench(), vec![], longest()]
}

#[test]
fn judge_short() {
    for table in tables() {
        for length in 0..3 {
            let mut lent = numbers(length);
            assert_eq!(raw::judge(&table, &mut lent), SHORT);
            assert_eq!(lent, numbers(length));
        }
    }
}

#[test]
fn check_short() {
    let short = [(0, 0), (0, 2), (2, 2), (2, 9), (2, 1), (3, 0), (3, 1), (9, 1)];
    for table in tables() {
        for (count, length) in short {
            let (mut counts, mut lent) = (vec![7; count], numbers(length));
            for nodes in [&[B, A, F][..], &[A], &[F]] {
                assert_eq!(raw::check(&mut counts, &table, &tree(nodes), &mut lent), SHORT);
            }
            assert_eq!((counts, lent), (vec![7; count], numbers(length)));
        }
    }
}

#[test]
fn relate_short() {
    for table in tables() {
        for length in 0..2 {
            for room in [0, 159, 8_192] {
                let (mut out, mut lent) = (bytes(room), numbers(length));
                assert_eq!(raw::relate(&table, &mut out, &mut lent), SHORT);
                assert_eq!((out, lent), (bytes(room), numbers(length)));
            }
        }
    }
}

#[test]
fn compare_short() {
    for table in tables() {
        for (q, r) in [(0, 2), (2, 0), (usize::MAX, 0)] {
            assert_eq!(raw::compare(&table, q, r, &mut []), SHORT);
        }
    }
}

#[test]
fn reduce_short() {
    for table in tables() {
        for length in 0..6 {
            for room in [0, 62, 125, 27_416] {
                let (mut out, mut lent) = (bytes(room), numbers(length));
                assert_eq!(raw::reduce(&table, &mut out, &mut lent), SHORT);
                assert_eq!((out, lent), (bytes(room), numbers(length)));
            }
        }
    }
}

#[test]
fn report_short() {
    for table in tables() {
        for room in [0, 64] {
            let mut out = bytes(room);
            assert_eq!(raw::report(&table, &mut out, &mut []), SHORT);
            assert_eq!(out, bytes(room));
        }
    }
}

#[test]
fn judge_long() {
    for length in [3, 4, 9] {
        let mut lent = numbers(length);
        assert_eq!(raw::judge(&bench(), &mut lent), OK);
        assert_eq!(lent, begun(&[5, 3, 8], numbers(length)));
    }
}

#[test]
fn check_long() {
    for (count, length) in [(3, 2), (4, 2), (3, 3), (9, 9)] {
        let (mut counts, mut lent) = (vec![7; count], numbers(length));
        assert_eq!(raw::check(&mut counts, &bench(), &tree(&[B, A, F]), &mut lent), OK);
        assert_eq!(counts, begun(&[8, 7, 7], vec![7; count]));
        assert_eq!(raw::check(&mut counts, &bench(), &tree(&[F]), &mut lent), 10);
        assert_eq!(counts, begun(&[8, 7, 8], vec![7; count]));
        assert_eq!(lent, numbers(length));
        assert_eq!(raw::check(&mut counts, &bench(), &tree(&[A]), &mut lent), NO);
        assert_eq!(counts, begun(&[8, 8, 8], vec![7; count]));
        assert_eq!(lent, begun(&[0, 1], numbers(length)));
    }
}

#[test]
fn relate_long() {
    for length in [2, 3, 9] {
        let (mut out, mut lent) = (bytes(160), numbers(length));
        assert_eq!(raw::relate(&bench(), &mut out, &mut lent), OK);
        assert_eq!(lent, begun(&[2, 9], numbers(length)));
    }
}

#[test]
fn compare_long() {
    for length in [1, 2, 9] {
        let mut lent = numbers(length);
        assert_eq!(raw::compare(&bench(), 0, 2, &mut lent), OK);
        assert_eq!(lent, numbers(length));
        assert_eq!(raw::compare(&bench(), 2, 0, &mut lent), NO);
        assert_eq!(lent, begun(&[3], numbers(length)));
    }
}

#[test]
fn reduce_long() {
    for length in [6, 7, 9] {
        let (mut out, mut lent) = (bytes(70), numbers(length));
        assert_eq!(raw::reduce(&bench(), &mut out, &mut lent), OK);
        assert_eq!(out, begun(&bench_reduced(), bytes(70)));
        assert_eq!(lent, begun(&[63, 5, 2, 8, 3, 1], numbers(length)));
    }
}

#[test]
fn report_long() {
    for length in [1, 2, 9] {
        let (mut out, mut lent) = (bytes(64), numbers(length));
        assert_eq!(raw::report(&bench(), &mut out, &mut lent), OK);
        assert_eq!(out, begun(BENCH_REPORT, bytes(64)));
        assert_eq!(lent, begun(&[38], numbers(length)));
    }
}
