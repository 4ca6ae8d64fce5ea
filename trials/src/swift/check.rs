use checker::{MAX_NODES, MAX_WAITING, Refusal, Subtree};

use super::groups::BySymbol;
use super::set::Set;
use super::table::{Rule, Table, open};

const TREE: u16 = 16;

/// A tree of at most this many nodes gets a small stack, which is cleared
/// sooner.
const FEW: usize = 64;

/// The subtree to look at in a tree that a table does not accept, or nothing if
/// it accepts the tree.
pub fn rejected_subtree(table: &[u8], tree: &[u8]) -> Result<Option<Subtree>, Refusal> {
    let table = Table::read(table)?;
    let nodes = nodes(tree).ok_or(Refusal::NotATree)?;
    if nodes.len() > MAX_NODES {
        return Err(Refusal::TreeAboveLimit);
    }
    let mut rules = BySymbol::EMPTY;
    rules.group(table.rules(), table.ranks.len());
    let (states, stateless) = if nodes.len() <= FEW {
        evaluate(&rules, table.ranks, nodes, &mut [Set::EMPTY; FEW], &mut [0; FEW])?
    } else {
        evaluate(&rules, table.ranks, nodes, &mut [Set::EMPTY; MAX_WAITING], &mut [0; MAX_WAITING])?
    };
    if !states.and(&table.finals).is_empty() {
        return Ok(None);
    }
    let whole = Subtree { node: nodes.len() - 1, size: nodes.len() };
    Ok(Some(stateless.unwrap_or(whole)))
}

/// The nodes of the only record, if it is a tree's.
fn nodes(tree: &[u8]) -> Option<&[[u8; 2]]> {
    let (TREE, body, []) = open(tree).ok()? else { return None };
    let (nodes, []) = body.as_chunks() else { return None };
    Some(nodes)
}

/// The states that a tree belongs to, and its first subtree that belongs to
/// none. The stack and the sizes of the trees on it have room for as many as may
/// wait.
fn evaluate(
    rules: &BySymbol,
    ranks: &[u8],
    nodes: &[[u8; 2]],
    stack: &mut [Set],
    sizes: &mut [u16],
) -> Result<(Set, Option<Subtree>), Refusal> {
    let mut height = 0_usize;
    let mut stateless = None;
    for (node, &symbol) in nodes.iter().enumerate() {
        let symbol = u16::from_le_bytes(symbol);
        let rank = *ranks.get(usize::from(symbol)).ok_or(Refusal::UnknownSymbol)?;
        let first = height.checked_sub(rank.into()).ok_or(Refusal::Unbalanced)?;
        let children = &stack[first..height];
        // Before the first subtree without a state no set is empty; after it no
        // size is needed.
        let states = if stateless.is_some() && children.iter().any(Set::is_empty) {
            Set::EMPTY
        } else {
            targets(rules, symbol as u8, children)
        };
        *stack.get_mut(first).ok_or(Refusal::TreeAboveLimit)? = states;
        if stateless.is_none() {
            let size = sizes[first..height].iter().fold(1, |size, child| size + child);
            sizes[first] = size;
            if states.is_empty() {
                stateless = Some(Subtree { node, size: size.into() });
            }
        }
        height = first + 1;
    }
    if height == 1 { Ok((stack[0], stateless)) } else { Err(Refusal::Unbalanced) }
}

/// The targets of a symbol's rules whose children are in these sets, one each.
fn targets(rules: &BySymbol, symbol: u8, children: &[Set]) -> Set {
    Set::of_words(|word| targets_in_word(rules.of(symbol, word), children))
}

/// The bits of the targets of rules, all in one word.
fn targets_in_word(rules: &[Rule], children: &[Set]) -> u64 {
    rules.iter().fold(0, |bits, rule| bits | fits(rule, children) << (rule.target % 64))
}

/// 1 if the children of a rule are in these sets, one each, or else 0.
fn fits(rule: &Rule, children: &[Set]) -> u64 {
    let pairs = children.iter().zip(&rule.children);
    pairs.fold(1, |fits, (set, &state)| fits & set.bit(state))
}
