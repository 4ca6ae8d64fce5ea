use std::iter;

use checker::{MAX_RANK, MAX_RULES, MAX_STATES, MAX_SYMBOLS, Refusal};

use super::set::Set;

pub const COUNTS: u16 = 1;
pub const RANKS: u16 = 2;
pub const FINALS: u16 = 3;
pub const RULE: u16 = 4;

/// A table that is not refused, and where its rules stand among its bytes.
#[derive(Clone, Copy)]
pub struct Table<'a> {
    pub states: usize,
    pub ranks: &'a [u8],
    pub finals: Set,
    pub rule_count: usize,
    rules: &'a [u8],
}

/// A rule in bytes. Places of `children` from the rank on hold 0.
#[derive(Clone, Copy, Debug, PartialEq, Eq)]
pub struct Rule {
    pub symbol: u8,
    pub target: u8,
    rank: u8,
    pub children: [u8; MAX_RANK],
}

impl Rule {
    pub const NONE: Self = Self { symbol: 0, target: 0, rank: 0, children: [0; MAX_RANK] };

    /// The rule that a body is, if it is a rule's of a table.
    fn of(body: &[u8]) -> Option<Self> {
        let ([symbol, target, states @ ..], _) = body.as_chunks::<2>() else { return None };
        let children = states.iter().rev().fold(0, |all, state| all << 8 | u64::from(state[0]));
        let (rank, children) = (states.len() as u8, children.to_le_bytes());
        Some(Self { symbol: symbol[0], target: target[0], rank, children })
    }

    pub fn rank(&self) -> usize {
        self.rank.into()
    }

    pub fn children(&self) -> impl Iterator<Item = u8> {
        self.children.iter().copied().take(self.rank())
    }

    #[inline(always)]
    pub fn names_any_of(&self, states: &Set) -> bool {
        self.children().any(|child| states.has(child))
    }

    /// Gives the target and the children new names.
    pub fn rename(&mut self, names: &[u8; MAX_STATES]) {
        let rank = self.rank();
        self.target = names[usize::from(self.target)];
        for child in self.children.iter_mut().take(rank) {
            *child = names[usize::from(*child)];
        }
    }
}

impl<'a> Table<'a> {
    /// Reads the table that `bytes` are, or says why they are none.
    pub fn read(bytes: &'a [u8]) -> Result<Self, Refusal> {
        let (counts, rest) = due(bytes, COUNTS)?;
        let [states, symbols, rule_count] = read_counts(counts)?;
        let (ranks, rest) = due(rest, RANKS)?;
        judge_ranks(ranks, symbols)?;
        let (finals, rules) = due(rest, FINALS)?;
        let finals = read_finals(finals, states)?;
        let table = Self { states, ranks, finals, rule_count, rules };
        table.judge_rules()?;
        Ok(table)
    }

    /// The rules in order.
    pub fn rules(&self) -> impl Iterator<Item = Rule> + Clone + use<'a> {
        let mut rest = self.rules;
        iter::from_fn(move || {
            let (_, body, behind) = open(rest).ok()?;
            rest = behind;
            Rule::of(body)
        })
    }

    fn judge_rules(&self) -> Result<(), Refusal> {
        let mut rest = self.rules;
        let mut count = 0;
        while !rest.is_empty() {
            let (kind, body, behind) = open(rest)?;
            if kind != RULE {
                return Err(Refusal::WrongKind);
            }
            if count == self.rule_count {
                return Err(Refusal::WrongRuleCount);
            }
            self.judge_rule(body)?;
            count += 1;
            rest = behind;
        }
        if count == self.rule_count { Ok(()) } else { Err(Refusal::WrongRuleCount) }
    }

    fn judge_rule(&self, body: &[u8]) -> Result<(), Refusal> {
        let &[s0, s1, _, _, ref children @ ..] = body else { return Err(Refusal::WrongLength) };
        let symbol = u16::from_le_bytes([s0, s1]);
        let rank = *self.ranks.get(usize::from(symbol)).ok_or(Refusal::OutOfRange)?;
        if children.len() != 2 * usize::from(rank) {
            return Err(Refusal::WrongLength);
        }
        let (states, _) = body[2..].as_chunks();
        if states.iter().all(|&state| usize::from(u16::from_le_bytes(state)) < self.states) {
            Ok(())
        } else {
            Err(Refusal::OutOfRange)
        }
    }
}

/// The kind and the body of the first record, and the bytes behind it.
pub fn open(bytes: &[u8]) -> Result<(u16, &[u8], &[u8]), Refusal> {
    first(bytes).ok_or(Refusal::BrokenRecord)
}

fn first(bytes: &[u8]) -> Option<(u16, &[u8], &[u8])> {
    let (length, rest) = bytes.split_first_chunk()?;
    let (record, behind) = rest.split_at_checked(u32::from_le_bytes(*length) as usize)?;
    let (kind, body) = record.split_first_chunk()?;
    Some((u16::from_le_bytes(*kind), body, behind))
}

/// The body of the first record, which must be there and be of this kind, and
/// the bytes behind it.
fn due(bytes: &[u8], due: u16) -> Result<(&[u8], &[u8]), Refusal> {
    if bytes.is_empty() {
        return Err(Refusal::WrongKind);
    }
    let (kind, body, behind) = open(bytes)?;
    if kind == due { Ok((body, behind)) } else { Err(Refusal::WrongKind) }
}

fn read_counts(body: &[u8]) -> Result<[usize; 3], Refusal> {
    let ([states, symbols, rules], []) = body.as_chunks() else {
        return Err(Refusal::WrongLength);
    };
    let counts = [states, symbols, rules].map(|&count| usize::from(u16::from_le_bytes(count)));
    let limits = [MAX_STATES, MAX_SYMBOLS, MAX_RULES];
    if counts.iter().zip(limits).any(|(&count, limit)| count > limit) {
        return Err(Refusal::AboveLimit);
    }
    Ok(counts)
}

fn judge_ranks(ranks: &[u8], symbols: usize) -> Result<(), Refusal> {
    if ranks.len() != symbols {
        Err(Refusal::WrongLength)
    } else if ranks.iter().any(|&rank| usize::from(rank) > MAX_RANK) {
        Err(Refusal::AboveLimit)
    } else {
        Ok(())
    }
}

fn read_finals(body: &[u8], states: usize) -> Result<Set, Refusal> {
    let (finals, []) = body.as_chunks() else { return Err(Refusal::WrongLength) };
    let finals = finals.iter().map(|&state| u16::from_le_bytes(state));
    if finals.clone().any(|state| usize::from(state) >= states) {
        Err(Refusal::OutOfRange)
    } else if !finals.clone().is_sorted_by(|earlier, later| earlier < later) {
        Err(Refusal::FinalsOutOfOrder)
    } else {
        Ok(finals.map(|state| state as u8).collect())
    }
}
