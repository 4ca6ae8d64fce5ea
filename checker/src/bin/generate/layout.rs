//! Records, tables and trees as bytes, right or wrong.

pub fn record(kind: u16, body: &[u8]) -> Vec<u8> {
    let length = 2 + body.len() as u32;
    [&length.to_le_bytes(), &kind.to_le_bytes()[..], body].concat()
}

pub fn words(values: &[u16]) -> Vec<u8> {
    values.iter().flat_map(|value| value.to_le_bytes()).collect()
}

pub fn header(states: u16, symbols: u16, rules: u16) -> Vec<u8> {
    record(1, &words(&[states, symbols, rules]))
}

pub fn ranks(ranks: &[u8]) -> Vec<u8> {
    record(2, ranks)
}

pub fn finals(states: &[u16]) -> Vec<u8> {
    record(3, &words(states))
}

pub fn rule(symbol: u16, target: u16, children: &[u16]) -> Vec<u8> {
    record(4, &words(&[&[symbol, target], children].concat()))
}

/// A record with another number in its length field.
pub fn with_length(mut record: Vec<u8>, length: u32) -> Vec<u8> {
    record[..4].copy_from_slice(&length.to_le_bytes());
    record
}

/// A record with another kind.
pub fn with_kind(mut record: Vec<u8>, kind: u16) -> Vec<u8> {
    record[4..6].copy_from_slice(&kind.to_le_bytes());
    record
}

/// A record whose body is cut or filled up with zeros to this length.
pub fn with_body_length(record: &[u8], length: usize) -> Vec<u8> {
    let mut body = record[6..].to_vec();
    body.resize(length, 0);
    let kind = u16::from_le_bytes([record[4], record[5]]);
    self::record(kind, &body)
}

/// A symbol, a target and children.
pub type Rule<'a> = (u16, u16, &'a [u16]);

pub fn table(states: u16, arity: &[u8], accepting: &[u16], rules: &[Rule]) -> Vec<u8> {
    let mut bytes = header(states, arity.len() as u16, rules.len() as u16);
    bytes.extend(ranks(arity));
    bytes.extend(finals(accepting));
    for &(symbol, target, children) in rules {
        bytes.extend(rule(symbol, target, children));
    }
    bytes
}

/// A tree in postfix order.
pub fn tree(symbols: &[u16]) -> Vec<u8> {
    record(16, &words(symbols))
}

/// The rules of the bench table.
pub const BENCH: [Rule; 8] = [
    (0, 0, &[]),
    (0, 1, &[]),
    (0, 2, &[]),
    (1, 2, &[]),
    (2, 3, &[0, 2]),
    (2, 3, &[1, 2]),
    (2, 3, &[2, 2]),
    (2, 4, &[4, 0]),
];

/// The bench table.
pub fn bench() -> Vec<u8> {
    table(5, &[0, 0, 2], &[3], &BENCH)
}

/// A table with each of the refusals 1 to 7, none far from the bench table.
pub fn refused_tables() -> [(u8, Vec<u8>); 7] {
    let mut cut = bench();
    cut.pop();
    let mut more = BENCH;
    more[7] = (2, 4, &[4, 0, 0]);
    let mut beyond = BENCH;
    beyond[7] = (2, 5, &[4, 0]);
    [
        (1, cut),
        (2, vec![]),
        (3, table(5, &[0, 0, 2], &[3], &more)),
        (4, table(257, &[0, 0, 2], &[3], &BENCH)),
        (5, table(5, &[0, 0, 2], &[3], &beyond)),
        (6, table(5, &[0, 0, 2], &[3, 3], &BENCH)),
        (7, [bench(), rule(0, 0, &[])].concat()),
    ]
}
