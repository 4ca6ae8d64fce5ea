//! The proved library and the plain checker side by side: generated cases, the
//! comparison of what both do with them, and what differs made small.

mod call;
mod case;
mod damage;
mod draw;
pub mod forms;
mod growth;
pub mod layout;
mod lent;
mod library;
mod plain;
mod proved;
mod random;
pub mod seeded;
pub mod shapes;
mod shrink;
mod swift;
mod tables;
mod tally;
mod text;
mod trees;
mod trial;

pub use call::{Call, Loan, Sizes};
pub use case::Case;
pub use draw::draw;
pub use lent::{Fill, Lent};
pub use library::{CheckArrays, Library, NO, OK, ROOM, SHORT};
pub use plain::Plain;
pub use proved::Proved;
pub use shrink::shrink;
pub use swift::Swift;
pub use tables::Family;
pub use tally::Tally;
pub use trial::{Disagreement, Kind, run};
