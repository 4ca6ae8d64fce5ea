//! Trees to be checked against tables.

mod cases;

use checker::{Answer, Counts, Subtree, check};

use crate::suite::{Suite, line, sized};
use crate::tables::LONGEST;
use cases::{Case, Due, Expected};

/// The longest tree of a case.
const LONGEST_TREE: usize = 40_000;

pub fn suite() -> Suite {
    let mut suite = Suite::default();
    for Case { name, expected, table, tree, before } in cases::all() {
        let [accepted, rejected, refused] = before;
        let (answer, counts) = check(&table, &tree, Counts { accepted, rejected, refused });
        let after = [counts.accepted, counts.rejected, counts.refused];
        let answer = due(answer);
        if let Some(Expected { answer: answer_due, after: counts_due }) = expected {
            assert_eq!(answer, answer_due, "the answer for {name}");
            assert_eq!(after, counts_due, "the counts for {name}");
        }
        assert!(table.len() <= LONGEST, "the table of {name} is too long");
        assert!(tree.len() <= LONGEST_TREE, "the tree of {name} is too long");

        let counts = before.map(u32::to_le_bytes).concat();
        let input = [sized(&table), sized(&tree), counts].concat();
        suite.add(&name, input, &lines(answer, after));
    }
    suite
}

fn due(answer: Answer) -> Due {
    match answer {
        Answer::Accepted => Due::Accepted,
        Answer::Rejected(Subtree { node, size }) => Due::Rejected(node, size),
        Answer::Refused(refusal) => Due::Refused(refusal.number()),
    }
}

fn lines(answer: Due, after: [u32; 3]) -> String {
    let mut out = match answer {
        Due::Accepted => "accepted\n".to_string(),
        Due::Rejected(node, size) => format!("rejected {node} {size}\n"),
        Due::Refused(number) => format!("refused {number}\n"),
    };
    line(&mut out, "counts", after);
    out
}
