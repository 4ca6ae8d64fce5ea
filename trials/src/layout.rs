//! Records and trees as bytes.

pub const RULE: u16 = 4;
const TREE: u16 = 16;

pub fn record(kind: u16, body: &[u8]) -> Vec<u8> {
    let length = 2 + body.len() as u32;
    [&length.to_le_bytes(), &kind.to_le_bytes()[..], body].concat()
}

pub fn words(values: &[u16]) -> Vec<u8> {
    values.iter().flat_map(|value| value.to_le_bytes()).collect()
}

/// A tree of these symbols, which are in postfix order.
pub fn tree(symbols: &[u16]) -> Vec<u8> {
    record(TREE, &words(symbols))
}

/// The symbols of a tree, if the bytes are one whole record of an even body.
pub fn symbols(tree: &[u8]) -> Option<Vec<u16>> {
    let record = checker::open(tree).ok()??;
    let (words, odd) = record.body.as_chunks();
    let whole = record.kind == TREE && record.end == tree.len() && odd.is_empty();
    whole.then(|| words.iter().copied().map(u16::from_le_bytes).collect())
}
