//! The checker behind the library's calls, with one fault.

use std::cell::RefCell;

use checker::{
    Automaton, BySymbol, MAX_NODES, MAX_WAITING, Rule, Simulation, StateSet, Subtree, Tree,
};
use trials::{CheckArrays, Lent, Library, NO, OK, Plain, ROOM, SHORT, layout};

#[derive(Clone, Copy, Debug, PartialEq, Eq)]
pub enum Fault {
    /// An accepted tree counts twice.
    AcceptedTwice,
    /// A count at its ceiling begins anew.
    CountWraps,
    RefusalNotCounted,
    ByteBehindReduced,
    ByteBehindRelation,
    ByteBehindReport,
    /// A number behind those of a table is written.
    NumberBehind,
    /// The round that changes nothing is counted.
    RoundsOfRelation,
    RoundsOfReduction,
    /// The last rule of the reduced table is missing.
    RuleLeftOut,
    /// A state does not simulate itself.
    PairLeftOut,
    /// Trees are not accepted if a rule has eight children.
    WideRuleForgotten,
    /// 5 and 6 change places.
    NumbersExchanged,
    /// A state number is looked at in its lowest 16 bits.
    StateCutTo16Bits,
    /// A report looks at more than 27,417 bytes.
    ReportOfAllBytes,
    /// A tree of 16,385 nodes is not refused for their number.
    OneNodeTooMany,
    /// Too many nodes are found in the walk, where an unknown symbol comes first.
    NodeLimitInWalk,
    /// The trees that would wait are counted before the symbol is looked at.
    PlaceBeforeSymbol,
    /// A body without nodes is answered, and not refused at its end.
    EmptyStackAnswered,
    /// A byte is written where the output is too short.
    OutputAfterRefusal,
    /// A number is written where the array is too short.
    NumberAfterShort,
    /// A byte is written beyond the output.
    ByteBeyondOutput,
    TreeWritten,
    /// A rule is named that has a match, if there is one.
    MatchedRule,
    /// No tree is accepted by the table that was written last.
    ReducedTableRejects,
    /// The node of a subtree is counted from 1.
    NodeFromOne,
    /// The top node of a subtree does not count.
    SizeWithoutTop,
    /// The last subtree that belongs to no state is named.
    LastSubtree,
    /// The whole tree is named, whatever is in it.
    WholeTree,
    /// The first subtree that belongs to no final state is named.
    SubtreeWithoutFinal,
    /// The subtree that the reduced table names.
    SubtreeOfReduced,
    /// The whole tree is named by the table that was written last.
    WholeTreeOfReduced,
    /// The numbers of the whole tree are written though it is accepted.
    SubtreeOfAccepted,
    /// A number is written though the tree is refused.
    SubtreeOfRefused,
    /// A number behind those of a subtree is written.
    NumberBehindSubtree,
    /// A check counts though the array for numbers is too short.
    CountedWhenShort,
    /// A number is written where the array for counts is too short.
    SubtreeWhenShort,
}

pub struct Faulty {
    fault: Fault,
    written: RefCell<Vec<u8>>,
}

impl Faulty {
    pub fn new(fault: Fault) -> Self {
        Self { fault, written: RefCell::default() }
    }

    fn has(&self, fault: Fault) -> bool {
        self.fault == fault
    }

    /// Whether this is the table that was written last.
    fn wrote(&self, table: &Lent<u8>) -> bool {
        *self.written.borrow() == table.content()
    }
}

impl Library for Faulty {
    fn judge(&self, table: &mut Lent<u8>, numbers: &mut Lent<usize>) -> u32 {
        let answer = Plain.judge(table, numbers);
        if self.has(Fault::NumberBehind) && answer == OK {
            change(numbers, 3, |number| number + 1);
        }
        match answer {
            5 if self.has(Fault::NumbersExchanged) => 6,
            6 if self.has(Fault::NumbersExchanged) => 5,
            _ => answer,
        }
    }

    fn check(&self, table: &mut Lent<u8>, tree: &mut Lent<u8>, arrays: CheckArrays<'_>) -> u32 {
        let CheckArrays { counts, numbers } = arrays;
        let before = counts.content().to_vec();
        let answer = Plain.check(table, tree, CheckArrays { counts, numbers });
        match (self.fault, answer) {
            (Fault::AcceptedTwice, OK) => change(counts, 0, |count| count.saturating_add(1)),
            (Fault::CountWraps, OK) if before[0] == u32::MAX => change(counts, 0, |_| 0),
            (Fault::RefusalNotCounted, 1..=13) => change(counts, 2, |_| before[2]),
            (Fault::TreeWritten, OK | NO) => change(tree, 6, |byte| byte ^ 1),
            (Fault::WideRuleForgotten, OK) if has_wide_rule(table.content()) => return NO,
            (Fault::OneNodeTooMany, 11) if nodes(tree.content()) == MAX_NODES + 1 => return NO,
            (Fault::NodeLimitInWalk, 11) if nodes(tree.content()) > MAX_NODES => {
                return waiting_at_unknown(table, tree).map_or(11, |_| 9);
            }
            (Fault::PlaceBeforeSymbol, 9) => {
                let full = waiting_at_unknown(table, tree) == Some(MAX_WAITING);
                return if full { 11 } else { 9 };
            }
            (Fault::EmptyStackAnswered, 10) if nodes(tree.content()) == 0 => return NO,
            (Fault::ReducedTableRejects, OK) if self.wrote(table) => return NO,
            (Fault::NodeFromOne, NO) => change(numbers, 0, |node| node + 1),
            (Fault::SizeWithoutTop, NO) => change(numbers, 1, |size| size - 1),
            (Fault::LastSubtree, NO) => {
                name(numbers, table, tree, |_, states| states.iter().rposition(StateSet::is_empty));
            }
            (Fault::WholeTree, NO) => name(numbers, table, tree, |_, _| None),
            (Fault::SubtreeWithoutFinal, NO) => name(numbers, table, tree, without_final),
            (Fault::SubtreeOfReduced, NO) => {
                let counts = &mut Lent::filled(3, 0);
                Plain.check(&mut reduced(table), tree, CheckArrays { counts, numbers });
            }
            (Fault::WholeTreeOfReduced, NO) if self.wrote(table) => {
                name(numbers, table, tree, |_, _| None);
            }
            (Fault::SubtreeOfAccepted, OK) => name(numbers, table, tree, |_, _| None),
            (Fault::SubtreeOfRefused, 8..=11) => change(numbers, 0, |_| 0),
            (Fault::NumberBehindSubtree, NO) => change(numbers, 2, |number| number + 1),
            (Fault::CountedWhenShort, SHORT) if before.len() >= 3 => {
                let numbers = &mut Lent::filled(2, 0);
                Plain.check(table, tree, CheckArrays { counts, numbers });
            }
            (Fault::SubtreeWhenShort, SHORT) if before.len() < 3 => change(numbers, 0, |_| 0),
            _ => {}
        }
        answer
    }

    fn relate(&self, table: &mut Lent<u8>, out: &mut Lent<u8>, numbers: &mut Lent<usize>) -> u32 {
        let answer = Plain.relate(table, out, numbers);
        match (self.fault, answer) {
            (Fault::ByteBehindRelation, OK) => {
                let states = Automaton::read(table.content()).unwrap().states;
                change(out, 32 * states, |byte| byte ^ 1);
            }
            (Fault::RoundsOfRelation, OK) => change(numbers, 0, |rounds| rounds + 1),
            (Fault::PairLeftOut, OK) => change(out, 0, |byte| byte & !1),
            (Fault::NumberAfterShort, SHORT) => change(numbers, 0, |number| number ^ 1),
            _ => {}
        }
        answer
    }

    fn compare(&self, table: &mut Lent<u8>, q: usize, r: usize, numbers: &mut Lent<usize>) -> u32 {
        let cut =
            |state: usize| if self.has(Fault::StateCutTo16Bits) { state & 0xffff } else { state };
        let answer = Plain.compare(table, cut(q), cut(r), numbers);
        if self.has(Fault::MatchedRule)
            && answer == NO
            && let Some(rule) = matched_rule(table.content(), q as u16, r as u16)
        {
            change(numbers, 0, |_| rule);
        }
        answer
    }

    fn reduce(&self, table: &mut Lent<u8>, out: &mut Lent<u8>, numbers: &mut Lent<usize>) -> u32 {
        let answer = Plain.reduce(table, out, numbers);
        if answer == OK {
            *self.written.borrow_mut() = out.content()[..numbers.content()[0]].to_vec();
        }
        match (self.fault, answer) {
            (Fault::ByteBehindReduced, OK) => change(out, numbers.content()[0], |byte| byte ^ 1),
            (Fault::RoundsOfReduction, OK) => change(numbers, 5, |rounds| rounds + 1),
            (Fault::RuleLeftOut, OK) => leave_rule_out(out),
            (Fault::OutputAfterRefusal, ROOM) => change(out, 0, |byte| byte ^ 1),
            (Fault::ByteBeyondOutput, OK) => {
                let beyond = out.start().wrapping_add(out.length());
                // SAFETY: a guard stands behind the output.
                unsafe { *beyond ^= 1 };
            }
            _ => {}
        }
        answer
    }

    fn report(&self, input: &mut Lent<u8>, out: &mut Lent<u8>, numbers: &mut Lent<usize>) -> u32 {
        let answer = Plain.report(input, out, numbers);
        match (self.fault, answer) {
            (Fault::ByteBehindReport, OK) => change(out, numbers.content()[0], |byte| byte ^ 1),
            (Fault::ReportOfAllBytes, OK) => {
                let reduced = checker::reduce(input.content(), &mut vec![0; input.length()]);
                for (place, byte) in checker::report(reduced).bytes().enumerate() {
                    change(out, place, |_| byte);
                }
            }
            _ => {}
        }
        answer
    }
}

/// Changes a cell of lent memory, if it is there.
fn change<T: Copy + trials::Fill>(lent: &mut Lent<T>, at: usize, change: impl Fn(T) -> T) {
    if let Some(cell) = lent.content_mut().get_mut(at) {
        *cell = change(*cell);
    }
}

fn has_wide_rule(table: &[u8]) -> bool {
    let rules = Automaton::read(table).unwrap().rules;
    rules.iter().any(|rule| rule.children().len() == 8)
}

fn nodes(tree: &[u8]) -> usize {
    layout::symbols(tree).map_or(0, |symbols| symbols.len())
}

/// How many trees wait where the first unknown symbol stands, if a walk comes so far.
fn waiting_at_unknown(table: &Lent<u8>, tree: &Lent<u8>) -> Option<usize> {
    let ranks = Automaton::read(table.content()).unwrap().ranks;
    let mut waiting = 0_usize;
    for symbol in layout::symbols(tree.content())? {
        let Some(&rank) = ranks.get(usize::from(symbol)) else {
            return Some(waiting);
        };
        waiting = waiting.checked_sub(usize::from(rank))? + 1;
        if waiting > MAX_WAITING {
            return None;
        }
    }
    None
}

/// Names the subtree of the node that `pick` gives, or the whole tree. It gets
/// the states of each subtree.
fn name(
    numbers: &mut Lent<usize>,
    table: &Lent<u8>,
    tree: &Lent<u8>,
    pick: impl FnOnce(&Automaton, &[StateSet]) -> Option<usize>,
) {
    let automaton = Automaton::read(table.content()).unwrap();
    let tree = Tree::read(tree.content(), &automaton.ranks).unwrap();
    let states = BySymbol::new(&automaton).evaluate(tree);
    let node = pick(&automaton, &states).unwrap_or(states.len() - 1);
    let Subtree { node, size } = tree.subtree(node);
    change(numbers, 0, |_| node);
    change(numbers, 1, |_| size);
}

/// The first subtree that belongs to no final state.
fn without_final(automaton: &Automaton, states: &[StateSet]) -> Option<usize> {
    let is_final = |states: &StateSet| automaton.finals.iter().any(|&q| states.contains(q));
    states.iter().position(|states| !is_final(states))
}

fn reduced(table: &Lent<u8>) -> Lent<u8> {
    let mut out = vec![0; table.length()];
    let length = checker::reduce(table.content(), &mut out).unwrap().length;
    Lent::holding(&out[..length], 0)
}

/// A rule of `q` that a rule of `r` matches.
fn matched_rule(table: &[u8], q: u16, r: u16) -> Option<usize> {
    let automaton = Automaton::read(table).unwrap();
    let simulation = Simulation::of(&automaton);
    let rules = &automaton.rules;
    let matched = |rule: &Rule| {
        rules.iter().any(|other| {
            other.target == r && other.symbol == rule.symbol && simulation.covers(rule, other)
        })
    };
    rules.iter().position(|rule| rule.target == q && matched(rule))
}

/// Writes a table again without its last rule, in its old length.
fn leave_rule_out(out: &mut Lent<u8>) {
    for length in 0..=out.length() {
        if let Ok(mut automaton) = Automaton::read(&out.content()[..length])
            && automaton.rules.pop().is_some()
        {
            automaton.write(out.content_mut()).unwrap();
            return;
        }
    }
}
