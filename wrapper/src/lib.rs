//! Reads, checks and shortens nondeterministic tree automata that are kept as bytes ("tables").
//! Each call is one of the proved static library; here its answers get names.
//!
//! ```
//! use fensullay::{Answer, Counts, Subtree, check, reduced, subtree_symbols};
//!
//! let table = [
//!     8, 0, 0, 0, 1, 0, 5, 0, 3, 0, 8, 0, // 5 states, 3 symbols, 8 rules
//!     5, 0, 0, 0, 2, 0, 0, 0, 2, // a, b and f have ranks 0, 0, 2
//!     4, 0, 0, 0, 3, 0, 3, 0, // state 3 is final
//!     6, 0, 0, 0, 4, 0, 0, 0, 0, 0, // a -> 0
//!     6, 0, 0, 0, 4, 0, 0, 0, 1, 0, // a -> 1
//!     6, 0, 0, 0, 4, 0, 0, 0, 2, 0, // a -> 2
//!     6, 0, 0, 0, 4, 0, 1, 0, 2, 0, // b -> 2
//!     10, 0, 0, 0, 4, 0, 2, 0, 3, 0, 0, 0, 2, 0, // f(0, 2) -> 3
//!     10, 0, 0, 0, 4, 0, 2, 0, 3, 0, 1, 0, 2, 0, // f(1, 2) -> 3
//!     10, 0, 0, 0, 4, 0, 2, 0, 3, 0, 2, 0, 2, 0, // f(2, 2) -> 3
//!     10, 0, 0, 0, 4, 0, 2, 0, 4, 0, 4, 0, 0, 0, // f(4, 0) -> 4
//! ];
//! let tree = [8, 0, 0, 0, 16, 0, 1, 0, 0, 0, 2, 0]; // b, a, f: f(b, a) in postfix order
//!
//! let (shorter, reduction) = reduced(&table)?;
//! assert_eq!((reduction.length, reduction.new_states, reduction.new_rules), (63, 2, 3));
//!
//! let first = check(Counts::fresh(), &table, &tree);
//! let second = check(first.counts, &shorter, &tree);
//! assert_eq!((first.answer, second.answer), (Answer::Accepted, Answer::Accepted));
//! assert_eq!(second.counts, Counts { accepted: 2, rejected: 0, refused: 0 });
//!
//! // f(f(f(a, a), a), b), in which f(f(a, a), a) belongs to no state
//! let tree = [16, 0, 0, 0, 16, 0, 0, 0, 0, 0, 2, 0, 0, 0, 2, 0, 1, 0, 2, 0];
//! let subtree = Subtree { node: 4, size: 5 };
//! assert_eq!(check(second.counts, &table, &tree).answer, Answer::Rejected(subtree));
//! assert_eq!(subtree_symbols(&tree, subtree), Some(vec![0, 0, 2, 0, 2]));
//! # Ok::<(), fensullay::Refusal>(())
//! ```

#![warn(missing_docs)]

mod refusal;
pub mod sys;

pub use refusal::Refusal;

/// A table that is not refused has at most this many bytes.
pub const TABLE_MAX: usize = 27_416;

/// The relation has this many bytes to a state.
pub const RELATION_ROW: usize = 32;

/// The relation has at most this many bytes.
pub const RELATION_MAX: usize = 8_192;

/// A report has at most this many bytes.
pub const REPORT_MAX: usize = 64;

/// The length and the kind at the start of a record have this many bytes.
const RECORD_HEAD: usize = 6;

/// The numbers of a table.
#[derive(Clone, Copy, Debug, PartialEq, Eq)]
pub struct Size {
    /// How many states it has.
    pub states: usize,
    /// How many symbols it has.
    pub symbols: usize,
    /// How many rules it has.
    pub rules: usize,
}

/// Judges a table: its numbers, or the first cause of refusal.
pub fn judge(table: &[u8]) -> Result<Size, Refusal> {
    let mut numbers = [0; 3];
    // SAFETY: each pointer and its length are those of a slice, and the slices are apart.
    let code = unsafe {
        sys::fensullay_judge(table.as_ptr(), table.len(), numbers.as_mut_ptr(), numbers.len())
    };
    done(code)?;
    let [states, symbols, rules] = numbers;
    Ok(Size { states, symbols, rules })
}

/// How often checks gave each answer. A count at 4,294,967,295 stays.
#[derive(Clone, Copy, Debug, Default, PartialEq, Eq)]
pub struct Counts {
    /// How many trees were accepted.
    pub accepted: u32,
    /// How many trees were not accepted.
    pub rejected: u32,
    /// How many checks were refused.
    pub refused: u32,
}

impl Counts {
    /// Three counts at zero.
    pub const fn fresh() -> Self {
        Self { accepted: 0, rejected: 0, refused: 0 }
    }
}

/// A node of a tree with all that is below it: in postfix order, the `size` nodes that end with
/// number `node`.
#[derive(Clone, Copy, Debug, PartialEq, Eq)]
pub struct Subtree {
    /// The number of its top node in postfix order, from 0.
    pub node: usize,
    /// How many nodes it has.
    pub size: usize,
}

/// What a check says of a tree.
#[derive(Clone, Copy, Debug, PartialEq, Eq)]
pub enum Answer {
    /// The table accepts the tree.
    Accepted,
    /// The table does not accept the tree. The subtree is the first in postfix order that belongs
    /// to no state, or the whole tree where every subtree belongs to one; all smaller subtrees in
    /// it belong to some state. A reduced table may name another subtree.
    Rejected(Subtree),
    /// The table, or else the tree, is refused.
    Refused(Refusal),
}

/// A check's answer, and the counts with one more of it.
#[derive(Clone, Copy, Debug, PartialEq, Eq)]
#[must_use]
pub struct Checked {
    /// The counts after the check.
    pub counts: Counts,
    /// What the check says.
    pub answer: Answer,
}

/// Checks a tree against a table, which is judged first. Of a tree that is not accepted the answer
/// names the subtree to look at.
pub fn check(counts: Counts, table: &[u8], tree: &[u8]) -> Checked {
    let mut after = [counts.accepted, counts.rejected, counts.refused];
    let mut numbers = [0; 2];
    // SAFETY: each pointer and its length are those of a slice, and the slices are apart.
    let code = unsafe {
        sys::fensullay_check(
            after.as_mut_ptr(),
            after.len(),
            table.as_ptr(),
            table.len(),
            tree.as_ptr(),
            tree.len(),
            numbers.as_mut_ptr(),
            numbers.len(),
        )
    };
    let [node, size] = numbers;
    let answer = match code {
        sys::OK => Answer::Accepted,
        sys::NO => Answer::Rejected(Subtree { node, size }),
        _ => Answer::Refused(refusal(code)),
    };
    let [accepted, rejected, refused] = after;
    Checked { counts: Counts { accepted, rejected, refused }, answer }
}

/// The symbols of a subtree in postfix order, from the bytes of its tree; `None` if the size is 0
/// or the bytes have no such nodes. The bytes are not judged.
pub fn subtree_symbols(tree: &[u8], subtree: Subtree) -> Option<Vec<u16>> {
    let (nodes, _) = tree.get(RECORD_HEAD..)?.as_chunks();
    let end = subtree.node.checked_add(1)?;
    let start = end.checked_sub(subtree.size)?;
    let nodes = nodes.get(start..end).filter(|nodes| !nodes.is_empty())?;
    Some(nodes.iter().copied().map(u16::from_le_bytes).collect())
}

/// What there is to say of the relation that `relate` writes.
#[derive(Clone, Copy, Debug, PartialEq, Eq)]
pub struct Relation {
    /// After how many rounds it stayed.
    pub rounds: usize,
    /// How many pairs it holds.
    pub pairs: usize,
}

/// Writes which states are simulated by which: `RELATION_ROW` bytes for each state q, in which bit
/// r % 8 of byte r / 8 is 1 if q is simulated by r, and the others are 0. The bytes after them
/// stay; after a refusal all stay.
pub fn relate(table: &[u8], out: &mut [u8]) -> Result<Relation, Refusal> {
    let [rounds, pairs] = writing(sys::fensullay_relate, table, out)?;
    Ok(Relation { rounds, pairs })
}

/// Whether one state is simulated by another.
#[derive(Clone, Copy, Debug, PartialEq, Eq)]
pub enum Comparison {
    /// It is.
    Yes,
    /// It is not: no rule of the other matches its rule of this number.
    Rule(usize),
}

/// Whether state q of a table is simulated by state r. If not, which unmatched rule of q the answer
/// names is not promised.
pub fn compare(table: &[u8], q: usize, r: usize) -> Result<Comparison, Refusal> {
    let mut numbers = [0];
    // SAFETY: each pointer and its length are those of a slice, and the slices are apart.
    let code = unsafe {
        sys::fensullay_compare(
            table.as_ptr(),
            table.len(),
            q,
            r,
            numbers.as_mut_ptr(),
            numbers.len(),
        )
    };
    match code {
        sys::OK => Ok(Comparison::Yes),
        sys::NO => Ok(Comparison::Rule(numbers[0])),
        _ => Err(refusal(code)),
    }
}

/// What reducing does to a table.
#[derive(Clone, Copy, Debug, PartialEq, Eq)]
pub struct Reduction {
    /// How many bytes the reduced table has.
    pub length: usize,
    /// How many states the table has.
    pub old_states: usize,
    /// How many states the reduced table has.
    pub new_states: usize,
    /// How many rules the table has.
    pub old_rules: usize,
    /// How many rules the reduced table has.
    pub new_rules: usize,
    /// How many rounds the simulation took on what is left without the states that no tree belongs to.
    pub rounds: usize,
}

/// Writes the reduced table, which accepts the same trees. The bytes after it stay; after a
/// refusal all stay. An `out` as long as the table is never too short.
pub fn reduce(table: &[u8], out: &mut [u8]) -> Result<Reduction, Refusal> {
    let [length, old_states, new_states, old_rules, new_rules, rounds] =
        writing(sys::fensullay_reduce, table, out)?;
    Ok(Reduction { length, old_states, new_states, old_rules, new_rules, rounds })
}

/// The reduced table, and what reducing did.
pub fn reduced(table: &[u8]) -> Result<(Vec<u8>, Reduction), Refusal> {
    let mut out = vec![0; table.len().min(TABLE_MAX)];
    let reduction = reduce(table, &mut out)?;
    out.truncate(reduction.length);
    Ok((out, reduction))
}

/// Writes the lines of the report on a table and returns their length; a refused table has its
/// line too. The bytes after them stay. The only refusal is `ShortOutput`, and then all stay.
pub fn report(input: &[u8], out: &mut [u8]) -> Result<usize, Refusal> {
    let [length] = writing(sys::fensullay_report, input, out)?;
    Ok(length)
}

/// The lines of the report on a table.
pub fn report_lines(input: &[u8]) -> String {
    let mut out = [0; REPORT_MAX];
    match report(input, &mut out) {
        Ok(length) => out[..length].iter().map(|&byte| char::from(byte)).collect(),
        Err(refusal) => unreachable!("{refusal}, with room for every report"),
    }
}

/// A call that reads one slice, writes another and gives some numbers.
type Writing = unsafe extern "C" fn(*const u8, usize, *mut u8, usize, *mut usize, usize) -> u32;

fn writing<const N: usize>(
    call: Writing,
    input: &[u8],
    out: &mut [u8],
) -> Result<[usize; N], Refusal> {
    let mut numbers = [0; N];
    // SAFETY: each pointer and its length are those of a slice, and the slices are apart.
    let code = unsafe {
        call(input.as_ptr(), input.len(), out.as_mut_ptr(), out.len(), numbers.as_mut_ptr(), N)
    };
    done(code)?;
    Ok(numbers)
}

fn done(code: u32) -> Result<(), Refusal> {
    match code {
        sys::OK => Ok(()),
        _ => Err(refusal(code)),
    }
}

fn refusal(code: u32) -> Refusal {
    match Refusal::from_number(code) {
        Some(refusal) => refusal,
        None => unreachable!("the library returns no {code}"),
    }
}
