//! Bottom-up tree automata stored as form tables: opening records, judging
//! tables and writing them, checking trees, downward simulation, and reducing
//! tables with a report on it.

mod automaton;
mod by_symbol;
mod check;
mod record;
mod reduction;
mod refusal;
mod report;
mod simulation;
mod state_set;
mod table;
mod tree;
mod write;

pub use automaton::{Automaton, MAX_RANK, MAX_RULES, MAX_STATES, MAX_SYMBOLS, Rule};
pub use by_symbol::BySymbol;
pub use check::{Answer, Counts, check};
pub use record::{Record, Records, open};
pub use reduction::{Change, Reduced, Reduction, reduce};
pub use refusal::Refusal;
pub use report::{MAX_INPUT, report, report_on};
pub use simulation::{Pair, Simulation};
pub use state_set::StateSet;
pub use tree::{MAX_NODES, MAX_WAITING, Subtree, Tree};
