use crate::{Automaton, BySymbol, Refusal, StateSet, open};

pub const MAX_NODES: usize = 16_384;
pub const MAX_WAITING: usize = 1_024;

const TREE: u16 = 16;

/// A tree over the symbols of an automaton, in postfix order.
#[derive(Clone, Copy, Debug, PartialEq, Eq)]
pub struct Tree<'a> {
    nodes: &'a [[u8; 2]],
    ranks: &'a [u8],
}

/// A node of a tree with all that is below it.
#[derive(Clone, Copy, Debug, PartialEq, Eq)]
pub struct Subtree {
    /// The number of the node in postfix order, from 0.
    pub node: usize,
    /// How many nodes there are, the node itself among them.
    pub size: usize,
}

impl<'a> Tree<'a> {
    /// Reads the tree that `bytes` are over symbols of these ranks, or says
    /// why they are none.
    pub fn read(bytes: &'a [u8], ranks: &'a [u8]) -> Result<Self, Refusal> {
        let nodes = body(bytes).ok_or(Refusal::NotATree)?;
        if nodes.len() > MAX_NODES {
            return Err(Refusal::TreeAboveLimit);
        }
        let mut waiting = 0_usize;
        for &node in nodes {
            let symbol = u16::from_le_bytes(node);
            let rank = *ranks.get(usize::from(symbol)).ok_or(Refusal::UnknownSymbol)?;
            waiting = waiting.checked_sub(usize::from(rank)).ok_or(Refusal::Unbalanced)? + 1;
            if waiting > MAX_WAITING {
                return Err(Refusal::TreeAboveLimit);
            }
        }
        if waiting == 1 { Ok(Self { nodes, ranks }) } else { Err(Refusal::Unbalanced) }
    }

    /// The symbol and the rank of each node, children first.
    pub fn nodes(self) -> impl ExactSizeIterator<Item = (u16, u8)> {
        let symbols = self.nodes.iter().copied().map(u16::from_le_bytes);
        symbols.map(|symbol| (symbol, self.ranks[usize::from(symbol)]))
    }

    /// The subtree of a node. Backwards from the node, each node is one of the
    /// trees that are due, and makes its children due.
    pub fn subtree(self, node: usize) -> Subtree {
        let ranks: Vec<u8> = self.nodes().map(|(_, rank)| rank).collect();
        let (mut first, mut due) = (node + 1, 1);
        while due > 0 {
            first -= 1;
            due = due - 1 + usize::from(ranks[first]);
        }
        Subtree { node, size: node + 1 - first }
    }
}

/// The body of the only record, in pairs of bytes.
fn body(bytes: &[u8]) -> Option<&[[u8; 2]]> {
    let record = open(bytes).ok()??;
    let (nodes, odd) = record.body.as_chunks();
    let whole = record.kind == TREE && record.end == bytes.len() && odd.is_empty();
    whole.then_some(nodes)
}

impl Automaton {
    /// Whether the automaton accepts a tree that was read with its ranks.
    pub fn accepts(&self, tree: Tree<'_>) -> bool {
        self.rejected_subtree(tree).is_none()
    }

    /// Where to look in a tree that is not accepted: at its first subtree, in
    /// postfix order, that belongs to no state, or at the whole tree if each
    /// belongs to one. Of an accepted tree nothing.
    pub fn rejected_subtree(&self, tree: Tree<'_>) -> Option<Subtree> {
        let states = BySymbol::new(self).evaluate(tree);
        let top = states.len() - 1;
        if self.finals.iter().any(|&state| states[top].contains(state)) {
            return None;
        }
        let first = states.iter().position(StateSet::is_empty);
        Some(tree.subtree(first.unwrap_or(top)))
    }
}

impl BySymbol {
    /// The states that each subtree belongs to, in postfix order.
    pub fn evaluate(&self, tree: Tree<'_>) -> Vec<StateSet> {
        let mut all = Vec::new();
        let mut stack: Vec<StateSet> = Vec::new();
        for (symbol, rank) in tree.nodes() {
            let first = stack.len() - usize::from(rank);
            let children = &stack[first..];
            let mut states = StateSet::EMPTY;
            for rule in self.rules(symbol) {
                let mut places = rule.children().iter().zip(children);
                if places.all(|(&state, child)| child.contains(state)) {
                    states.insert(rule.target);
                }
            }
            stack.truncate(first);
            stack.push(states);
            all.push(states);
        }
        all
    }
}
