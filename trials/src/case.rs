use crate::{Call, Family};

/// A table and calls on it.
#[derive(Clone, Debug, PartialEq, Eq)]
pub struct Case {
    pub family: Family,
    pub table: Vec<u8>,
    pub calls: Vec<Call>,
    /// What the memory is filled with before a call.
    pub fill: u64,
}
