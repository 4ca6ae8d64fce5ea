use std::error::Error;
use std::fmt;

/// Why an input is refused: the first seven causes lie in the table, the next four in the tree.
#[derive(Clone, Copy, Debug, PartialEq, Eq, Hash)]
pub enum Refusal {
    /// What is left holds no whole record, or a record's length is below 2.
    BrokenRecord = 1,
    /// A record of another kind than the one that is due, or the table ends before its third.
    WrongKind = 2,
    /// A body's length differs from the layout.
    WrongLength = 3,
    /// More than 256 states, 256 symbols or 1,024 rules, or a rank above 8.
    AboveLimit = 4,
    /// A symbol or a state not below their number.
    OutOfRange = 5,
    /// Final states that do not strictly increase.
    FinalsOutOfOrder = 6,
    /// A rule too many, or too few.
    WrongRuleCount = 7,
    /// Not one whole record of kind 16 with an even body and nothing after it.
    NotATree = 8,
    /// A node's symbol is not below the table's number of symbols.
    UnknownSymbol = 9,
    /// A node has too few trees before it, or the body does not end with one tree.
    Unbalanced = 10,
    /// More than 16,384 nodes, or more than 1,024 trees waiting after a node.
    TreeAboveLimit = 11,
    /// A state number that is not below the table's number of states.
    UnknownState = 12,
    /// The output is shorter than the result.
    ShortOutput = 13,
}

impl Refusal {
    /// All causes, as they are numbered from 1 on.
    pub const ALL: [Self; 13] = [
        Self::BrokenRecord,
        Self::WrongKind,
        Self::WrongLength,
        Self::AboveLimit,
        Self::OutOfRange,
        Self::FinalsOutOfOrder,
        Self::WrongRuleCount,
        Self::NotATree,
        Self::UnknownSymbol,
        Self::Unbalanced,
        Self::TreeAboveLimit,
        Self::UnknownState,
        Self::ShortOutput,
    ];

    /// The number of the cause, 1 to 13.
    pub const fn number(self) -> u32 {
        self as u32
    }

    /// The cause of this number, if it is one of 1 to 13.
    pub fn from_number(number: u32) -> Option<Self> {
        Self::ALL.into_iter().find(|refusal| refusal.number() == number)
    }
}

impl fmt::Display for Refusal {
    fn fmt(&self, f: &mut fmt::Formatter<'_>) -> fmt::Result {
        f.write_str(match self {
            Self::BrokenRecord => {
                "what is left of the table is not empty and holds no whole record, or a record's length is below 2"
            }
            Self::WrongKind => {
                "a record of the table is of another kind than the one that is due, or the table ends before its third record"
            }
            Self::WrongLength => "a body's length differs from the table's layout",
            Self::AboveLimit => {
                "the table has more than 256 states, 256 symbols or 1,024 rules, or a rank above 8"
            }
            Self::OutOfRange => "a symbol or a state of the table is not below their number",
            Self::FinalsOutOfOrder => "the table's final states do not strictly increase",
            Self::WrongRuleCount => "the table has a rule too many, or too few",
            Self::NotATree => {
                "the tree is not one whole record of kind 16 with an even body and nothing after it"
            }
            Self::UnknownSymbol => "a symbol of the tree is not below the table's number of symbols",
            Self::Unbalanced => {
                "a node has fewer finished trees before it than its rank, or the body does not end with one tree"
            }
            Self::TreeAboveLimit => {
                "the tree has more than 16,384 nodes, or more than 1,024 finished trees waiting after a node"
            }
            Self::UnknownState => "a state number is not below the table's number of states",
            Self::ShortOutput => "the output is shorter than the result",
        })
    }
}

impl Error for Refusal {}
