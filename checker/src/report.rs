use crate::{Reduced, Refusal, reduce};

/// How many bytes of an input are judged, one more than the longest table has.
pub const MAX_INPUT: usize = 27_417;

/// The report on the table that an input is.
pub fn report_on(input: &[u8]) -> String {
    let table = &input[..input.len().min(MAX_INPUT)];
    report(reduce(table, &mut vec![0; table.len()]))
}

/// The lines for what reducing a table says.
pub fn report(answer: Result<Reduced, Refusal>) -> String {
    match answer {
        Ok(Reduced { states, rules, rounds, .. }) => format!(
            "reduced\nstates {} {}\nrules {} {}\nrounds {rounds}\n",
            states.old, states.new, rules.old, rules.new,
        ),
        Err(refusal) => format!("refused {}\n", refusal.number()),
    }
}
