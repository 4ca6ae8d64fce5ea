//! The calls against documents 01 and 02: the bench table, the edges, every refusal, the subtrees
//! that a check names, and which lent memory stays as it was. Every expected value is read off the
//! documents by hand.

mod arrays;
mod bench;
mod counts;
mod edges;
mod layout;
mod raw;
mod refusals;
mod subtrees;
