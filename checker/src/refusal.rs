/// Why an input was refused.
#[derive(Clone, Copy, Debug, PartialEq, Eq)]
pub enum Refusal {
    /// The rest is not empty and holds no whole record, or a length is below 2.
    BrokenRecord,
    /// A kind is not the one due, or the table ends before its third record.
    WrongKind,
    /// A body's length differs from the layout.
    WrongLength,
    /// A number of states, symbols or rules, or a rank, is above its limit.
    AboveLimit,
    /// A symbol or state is out of the table's range.
    OutOfRange,
    /// The final states are not strictly increasing.
    FinalsOutOfOrder,
    /// There are more or fewer rules than the header says.
    WrongRuleCount,
    /// The bytes are not one whole record of a tree, or its body is odd.
    NotATree,
    /// A symbol in a tree is not one of the automaton's.
    UnknownSymbol,
    /// A node has fewer trees before it than its rank, or the end has not one.
    Unbalanced,
    /// A tree has too many nodes, or too many trees wait after a node.
    TreeAboveLimit,
    /// A state in a query is not one of the automaton's.
    UnknownState,
    /// The output is shorter than the result.
    ShortOutput,
}

impl Refusal {
    /// The refusal's number in document 01.
    pub const fn number(self) -> u8 {
        match self {
            Self::BrokenRecord => 1,
            Self::WrongKind => 2,
            Self::WrongLength => 3,
            Self::AboveLimit => 4,
            Self::OutOfRange => 5,
            Self::FinalsOutOfOrder => 6,
            Self::WrongRuleCount => 7,
            Self::NotATree => 8,
            Self::UnknownSymbol => 9,
            Self::Unbalanced => 10,
            Self::TreeAboveLimit => 11,
            Self::UnknownState => 12,
            Self::ShortOutput => 13,
        }
    }
}
