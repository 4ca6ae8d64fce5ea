use std::borrow::Cow;

use checker::Automaton;

use crate::layout::{RULE, record};
use crate::library::RELATION_ROW;
use crate::{CheckArrays, Lent, Library};

/// A call on a table, and what is lent to it. `room` says by how many bytes the
/// output is longer than the result, and `numbers` how long the array is. What a
/// report looks at is the table, filled up to `length`.
#[derive(Clone, Debug, PartialEq, Eq)]
pub enum Call {
    Judge { numbers: usize },
    Check { counts: Vec<u32>, tree: Vec<u8>, numbers: usize },
    Relate { room: isize, numbers: usize },
    Compare { q: usize, r: usize, numbers: usize },
    Reduce { room: isize, numbers: usize },
    Report { length: usize, room: isize, numbers: usize },
}

/// What a call leaves.
#[derive(Clone, Debug, PartialEq, Eq)]
pub struct Outcome {
    pub answer: u32,
    pub counts: Vec<u32>,
    pub numbers: Vec<usize>,
    pub out: Vec<u8>,
    /// Whether the guards are as they were.
    pub guarded: bool,
    /// Whether the table and the tree are as they were.
    pub kept: bool,
}

impl Call {
    pub const NAMES: [&str; 6] = ["judge", "check", "relate", "compare", "reduce", "report"];

    /// The place of the call's name among `NAMES`.
    pub const fn index(&self) -> usize {
        match self {
            Self::Judge { .. } => 0,
            Self::Check { .. } => 1,
            Self::Relate { .. } => 2,
            Self::Compare { .. } => 3,
            Self::Reduce { .. } => 4,
            Self::Report { .. } => 5,
        }
    }

    pub const fn name(&self) -> &'static str {
        Self::NAMES[self.index()]
    }

    /// Makes the call on memory of its own.
    pub fn perform(&self, library: &dyn Library, table: &[u8], sizes: Sizes, fill: u64) -> Outcome {
        let input = self.input(table);
        let mut loan = self.lend(&input, sizes, fill);
        let answer = self.pass(library, &mut loan);
        loan.outcome(answer, &input, self.tree())
    }

    /// The memory that the call is lent.
    pub fn lend(&self, input: &[u8], sizes: Sizes, fill: u64) -> Loan {
        Loan {
            input: Lent::holding(input, fill),
            tree: Lent::holding(self.tree(), fill),
            out: Lent::filled(self.room(input, sizes), fill),
            numbers: Lent::filled(self.numbers(), fill),
            counts: Lent::holding(self.counts(), fill),
        }
    }

    /// Makes the call on memory that was lent to it.
    pub fn pass(&self, library: &dyn Library, loan: &mut Loan) -> u32 {
        let Loan { input, tree, out, numbers, counts } = loan;
        match *self {
            Self::Judge { .. } => library.judge(input, numbers),
            Self::Check { .. } => library.check(input, tree, CheckArrays { counts, numbers }),
            Self::Relate { .. } => library.relate(input, out, numbers),
            Self::Compare { q, r, .. } => library.compare(input, q, r, numbers),
            Self::Reduce { .. } => library.reduce(input, out, numbers),
            Self::Report { .. } => library.report(input, out, numbers),
        }
    }

    /// The table, for a report with bytes behind it.
    fn input<'a>(&self, table: &'a [u8]) -> Cow<'a, [u8]> {
        match *self {
            Self::Report { length, .. } if length > table.len() => {
                [table, &filler(length - table.len())].concat().into()
            }
            _ => table.into(),
        }
    }

    fn tree(&self) -> &[u8] {
        if let Self::Check { tree, .. } = self { tree } else { &[] }
    }

    fn counts(&self) -> &[u32] {
        if let Self::Check { counts, .. } = self { counts } else { &[] }
    }

    const fn numbers(&self) -> usize {
        match *self {
            Self::Judge { numbers }
            | Self::Check { numbers, .. }
            | Self::Relate { numbers, .. }
            | Self::Compare { numbers, .. }
            | Self::Reduce { numbers, .. }
            | Self::Report { numbers, .. } => numbers,
        }
    }

    /// The length of the output.
    fn room(&self, input: &[u8], sizes: Sizes) -> usize {
        match *self {
            Self::Relate { room, .. } => sizes.relation.saturating_add_signed(room),
            Self::Reduce { room, .. } => sizes.reduced.saturating_add_signed(room),
            Self::Report { room, .. } => {
                checker::report_on(input).len().saturating_add_signed(room)
            }
            _ => 0,
        }
    }
}

/// Bytes that are one record of a rule where they are enough for a record.
fn filler(length: usize) -> Vec<u8> {
    match length.checked_sub(6) {
        Some(body) => record(RULE, &vec![0; body]),
        None => vec![0; length],
    }
}

/// The lengths of results on a table.
#[derive(Clone, Copy, Debug)]
pub struct Sizes {
    pub relation: usize,
    pub reduced: usize,
}

impl Sizes {
    /// For a refused table those of a small one.
    pub fn of(table: &[u8]) -> Self {
        match Automaton::read(table) {
            Ok(automaton) => Self {
                relation: RELATION_ROW * automaton.states,
                reduced: checker::Reduction::of(&automaton).automaton().encoded_len(),
            },
            Err(_) => Self { relation: RELATION_ROW, reduced: 24 },
        }
    }
}

/// The memory that a call is lent. What it does not take is empty.
pub struct Loan {
    pub input: Lent<u8>,
    pub tree: Lent<u8>,
    pub out: Lent<u8>,
    pub numbers: Lent<usize>,
    pub counts: Lent<u32>,
}

impl Loan {
    fn outcome(&self, answer: u32, input: &[u8], tree: &[u8]) -> Outcome {
        Outcome {
            answer,
            counts: self.counts.content().to_vec(),
            numbers: self.numbers.content().to_vec(),
            out: self.out.content().to_vec(),
            guarded: self.guarded(),
            kept: self.input.content() == input && self.tree.content() == tree,
        }
    }

    fn guarded(&self) -> bool {
        let bytes = [&self.input, &self.tree, &self.out];
        bytes.iter().all(|lent| lent.guarded()) && self.numbers.guarded() && self.counts.guarded()
    }
}
