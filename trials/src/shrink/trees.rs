//! Changes to the tree of a check.

use std::ops::Range;

use checker::{Automaton, Tree};

use crate::{Call, Case, layout};

/// The symbols of the tree of a call.
pub fn symbols(case: &Case, at: usize) -> Option<Vec<u16>> {
    if let Call::Check { tree, .. } = &case.calls[at] { layout::symbols(tree) } else { None }
}

pub fn put(case: &mut Case, at: usize, symbols: &[u16]) {
    put_bytes(case, at, &layout::tree(symbols));
}

pub fn put_bytes(case: &mut Case, at: usize, bytes: &[u8]) {
    if let Call::Check { tree, .. } = &mut case.calls[at] {
        *tree = bytes.to_vec();
    }
}

/// Each subtree that is not a leaf, with each of its children. Nothing if the
/// tree is not over the table's symbols.
pub fn children(case: &Case, at: usize) -> Vec<(Range<usize>, Range<usize>)> {
    let Call::Check { tree, .. } = &case.calls[at] else { return vec![] };
    let Ok(Automaton { ranks, .. }) = Automaton::read(&case.table) else { return vec![] };
    let Ok(tree) = Tree::read(tree, &ranks) else { return vec![] };

    let mut children = Vec::new();
    let mut waiting: Vec<Range<usize>> = Vec::new();
    for (node, (_, rank)) in tree.nodes().enumerate() {
        let below = waiting.split_off(waiting.len() - usize::from(rank));
        let start = below.first().map_or(node, |child| child.start);
        children.extend(below.into_iter().map(|child| (start..node + 1, child)));
        waiting.push(start..node + 1);
    }
    children.reverse();
    children
}

/// Puts a subtree in the place of a larger one.
pub fn hoist(case: &mut Case, at: usize, larger: Range<usize>, smaller: Range<usize>) {
    if let Some(symbols) = symbols(case, at) {
        let parts = [&symbols[..larger.start], &symbols[smaller], &symbols[larger.end..]];
        put(case, at, &parts.concat());
    }
}
