//! Tables to be judged, read and written again.

mod cases;
mod report;

use checker::Automaton;

use crate::suite::{Suite, sized};
use cases::{Case, Expected};

/// The longest table of a case.
pub const LONGEST: usize = 32_768;

pub fn suite() -> Suite {
    let mut suite = Suite::default();
    for Case { name, expected, bytes } in cases::all() {
        let verdict = Automaton::read(&bytes);
        let number = verdict.as_ref().map_or_else(|refusal| refusal.number(), |_| 0);
        match expected {
            Expected::Table => assert_eq!(number, 0, "{name} is a table"),
            Expected::Refused(due) => assert_eq!(number, due, "{name} is refused"),
            Expected::Any => {}
        }
        // A table has one form only.
        if let Ok(automaton) = &verdict {
            assert_eq!(automaton.encode(), bytes, "{name} is written as it was read");
        }
        assert!(bytes.len() <= LONGEST, "{name} is too long");
        suite.add(&name, sized(&bytes), &report::lines(&bytes, &verdict));
    }
    suite
}
