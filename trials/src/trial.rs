use std::fmt;

use checker::{Automaton, Rule, Simulation};

use crate::call::{Outcome, Sizes};
use crate::library::{CHECK_NUMBERS, NO, OK, REDUCE_NUMBERS};
use crate::text::hex;
use crate::{Call, Case, Library, Plain, Tally, layout};

/// What should be alike and is not.
#[derive(Clone, Debug)]
pub struct Disagreement {
    pub kind: Kind,
    detail: String,
}

/// A call and what disagrees about it.
#[derive(Clone, Copy, Debug, PartialEq, Eq, Hash)]
pub struct Kind {
    pub call: &'static str,
    pub part: &'static str,
}

impl fmt::Display for Disagreement {
    fn fmt(&self, f: &mut fmt::Formatter) -> fmt::Result {
        write!(f, "{}, {}: {}", self.kind.call, self.kind.part, self.detail)
    }
}

/// Runs a library and the checker side by side on a case, to the first
/// disagreement.
pub fn run(library: &dyn Library, case: &Case, tally: &mut Tally) -> Result<(), Disagreement> {
    tally.case(case.family);
    let table = &case.table;
    let mut trial = Trial { library, fill: case.fill, tally };
    let reduced = trial.reduce(table)?;
    if let Some(reduced) = &reduced {
        trial.tally.reduction(table.len(), &reduced.numbers);
        trial.reduce_again(&reduced.out)?;
    }
    let sizes = Sizes::of(table);
    for call in &case.calls {
        let outcome = trial.side_by_side(call, table, sizes)?;
        if let (Call::Check { tree, .. }, Some(reduced)) = (call, &reduced) {
            let on_reduced = trial.check_reduced(call, &reduced.out, &outcome)?;
            if outcome.answer == NO {
                let nodes = layout::symbols(tree).map_or(0, |symbols| symbols.len());
                trial.tally.subtree(nodes, &outcome.numbers, &on_reduced.numbers);
            }
        }
    }
    Ok(())
}

struct Trial<'a> {
    library: &'a dyn Library,
    fill: u64,
    tally: &'a mut Tally,
}

impl Trial<'_> {
    /// The outcome of a call, if it is the checker's too.
    fn side_by_side(
        &mut self,
        call: &Call,
        table: &[u8],
        sizes: Sizes,
    ) -> Result<Outcome, Disagreement> {
        let outcome = call.perform(self.library, table, sizes, self.fill);
        let mut plain = call.perform(&Plain, table, sizes, self.fill);
        self.tally.call(call, plain.answer);
        if let (&Call::Compare { q, r, .. }, NO, NO) = (call, outcome.answer, plain.answer) {
            any_unmatched_rule(table, q, r, &outcome, &mut plain)?;
        }
        match difference(&outcome, &plain) {
            None => Ok(outcome),
            Some((part, [left, right])) => {
                Err(disagreement(call, part, format!("library {left}, checker {right}")))
            }
        }
    }

    /// Reduces a table into an output as long as the table. Of the output only
    /// the reduced table is left.
    fn reduce(&mut self, table: &[u8]) -> Result<Option<Outcome>, Disagreement> {
        let call = Call::Reduce { room: 0, numbers: REDUCE_NUMBERS };
        let sizes = Sizes { relation: 0, reduced: table.len() };
        let mut outcome = self.side_by_side(&call, table, sizes)?;
        if outcome.answer != OK {
            return Ok(None);
        }
        outcome.out.truncate(outcome.numbers[0]);
        Ok(Some(outcome))
    }

    /// A reduced table gives its own bytes and length.
    fn reduce_again(&mut self, reduced: &[u8]) -> Result<(), Disagreement> {
        let again = self.reduce(reduced)?.map(|outcome| outcome.out);
        if again.as_deref() == Some(reduced) {
            return Ok(());
        }
        let again = again.map_or("no table".into(), |again| hex(&again));
        let detail = format!("{} becomes {again}", hex(reduced));
        Err(Disagreement { kind: Kind { call: "reduce", part: "again" }, detail })
    }

    /// A check answers and counts alike on the table and on the reduced one. The
    /// subtree that it names there may be another, but is the checker's too.
    fn check_reduced(
        &mut self,
        check: &Call,
        reduced: &[u8],
        on_table: &Outcome,
    ) -> Result<Outcome, Disagreement> {
        let sizes = Sizes { relation: 0, reduced: 0 };
        let on_reduced = check.perform(self.library, reduced, sizes, self.fill);
        self.tally.calls += 1;
        let [left, right] = [&on_reduced, on_table].map(without_subtree);
        if let Some((_, [left, right])) = difference(&left, &right) {
            let detail = format!("reduced table {left}, table {right}");
            return Err(disagreement(check, "reduced table", detail));
        }
        let plain = check.perform(&Plain, reduced, sizes, self.fill);
        match difference(&on_reduced, &plain) {
            None => Ok(on_reduced),
            Some((_, [left, right])) => {
                let detail = format!("library {left}, checker {right}");
                Err(disagreement(check, "reduced table's subtree", detail))
            }
        }
    }
}

/// The outcome of a check but for the subtree that it names.
fn without_subtree(outcome: &Outcome) -> Outcome {
    let mut outcome = outcome.clone();
    if outcome.answer == NO {
        outcome.numbers.iter_mut().take(CHECK_NUMBERS).for_each(|number| *number = 0);
    }
    outcome
}

fn disagreement(call: &Call, part: &'static str, detail: String) -> Disagreement {
    Disagreement { kind: Kind { call: call.name(), part }, detail }
}

/// Takes the named rule for the checker's if it is a rule of `q` that no rule of
/// `r` matches.
fn any_unmatched_rule(
    table: &[u8],
    q: usize,
    r: usize,
    outcome: &Outcome,
    plain: &mut Outcome,
) -> Result<(), Disagreement> {
    let rule = outcome.numbers[0];
    if !is_unmatched(table, q, r, rule) {
        let detail = format!("library {rule}, checker {}", plain.numbers[0]);
        return Err(Disagreement { kind: Kind { call: "compare", part: "rule" }, detail });
    }
    plain.numbers[0] = rule;
    Ok(())
}

fn is_unmatched(table: &[u8], q: usize, r: usize, rule: usize) -> bool {
    let automaton = Automaton::read(table).expect("a table that was compared");
    let simulation = Simulation::of(&automaton);
    let Some(rule) = automaton.rules.get(rule) else { return false };
    let matches = |other: &Rule| {
        usize::from(other.target) == r
            && other.symbol == rule.symbol
            && simulation.covers(rule, other)
    };
    usize::from(rule.target) == q && !automaton.rules.iter().any(matches)
}

/// The first part in which two outcomes differ, and what it is in both.
fn difference(left: &Outcome, right: &Outcome) -> Option<(&'static str, [String; 2])> {
    let both = [left, right];
    if left.answer != right.answer {
        Some(("answer", both.map(|outcome| outcome.answer.to_string())))
    } else if left.counts != right.counts {
        Some(("counts", both.map(|outcome| format!("{:?}", outcome.counts))))
    } else if left.numbers != right.numbers {
        Some(("numbers", both.map(|outcome| format!("{:?}", outcome.numbers))))
    } else if left.out != right.out {
        Some(("output", both.map(|outcome| hex(&outcome.out))))
    } else if left.guarded != right.guarded {
        Some(("guards", both.map(|outcome| kept_or_written(outcome.guarded))))
    } else if left.kept != right.kept {
        Some(("inputs", both.map(|outcome| kept_or_written(outcome.kept))))
    } else {
        None
    }
}

fn kept_or_written(kept: bool) -> String {
    if kept { "kept" } else { "written" }.into()
}
