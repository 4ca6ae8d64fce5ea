use crate::{Automaton, Refusal, Subtree, Tree};

/// What a check says of a tree.
#[derive(Clone, Copy, Debug, PartialEq, Eq)]
pub enum Answer {
    Accepted,
    Rejected(Subtree),
    Refused(Refusal),
}

/// How often each answer was given. A full count stays.
#[derive(Clone, Copy, Debug, Default, PartialEq, Eq)]
pub struct Counts {
    pub accepted: u32,
    pub rejected: u32,
    pub refused: u32,
}

impl Counts {
    #[must_use]
    pub fn after(mut self, answer: Answer) -> Self {
        let count = match answer {
            Answer::Accepted => &mut self.accepted,
            Answer::Rejected(_) => &mut self.rejected,
            Answer::Refused(_) => &mut self.refused,
        };
        *count = count.saturating_add(1);
        self
    }
}

/// Checks a tree against a table, and counts the answer.
pub fn check(table: &[u8], tree: &[u8], counts: Counts) -> (Answer, Counts) {
    let answer = match rejected_subtree(table, tree) {
        Ok(None) => Answer::Accepted,
        Ok(Some(subtree)) => Answer::Rejected(subtree),
        Err(refusal) => Answer::Refused(refusal),
    };
    (answer, counts.after(answer))
}

fn rejected_subtree(table: &[u8], tree: &[u8]) -> Result<Option<Subtree>, Refusal> {
    let automaton = Automaton::read(table)?;
    let tree = Tree::read(tree, &automaton.ranks)?;
    Ok(automaton.rejected_subtree(tree))
}
