use crate::automaton::{MAX_RANK, MAX_RULES, MAX_STATES, MAX_SYMBOLS};
use crate::{Automaton, Records, Refusal, Rule};

pub(crate) const HEADER: u16 = 1;
pub(crate) const RANKS: u16 = 2;
pub(crate) const FINALS: u16 = 3;
pub(crate) const RULE: u16 = 4;

impl Automaton {
    /// Reads the table that `bytes` are, or says why they are none.
    pub fn read(bytes: &[u8]) -> Result<Self, Refusal> {
        let mut records = Records::new(bytes);
        let (states, symbols, count) = read_header(due(&mut records, HEADER)?)?;
        let ranks = read_ranks(due(&mut records, RANKS)?, symbols)?;
        let finals = read_finals(due(&mut records, FINALS)?, states)?;

        let mut rules = Vec::with_capacity(count);
        for record in records {
            let record = record?;
            if record.kind != RULE {
                return Err(Refusal::WrongKind);
            }
            if rules.len() == count {
                return Err(Refusal::WrongRuleCount);
            }
            rules.push(read_rule(record.body, &ranks, states)?);
        }
        if rules.len() < count {
            return Err(Refusal::WrongRuleCount);
        }
        Ok(Self { states, ranks, finals, rules })
    }
}

/// The body of the next record, which must be there and be of this kind.
fn due<'a>(records: &mut Records<'a>, kind: u16) -> Result<&'a [u8], Refusal> {
    let record = records.next().ok_or(Refusal::WrongKind)??;
    if record.kind == kind { Ok(record.body) } else { Err(Refusal::WrongKind) }
}

fn read_header(body: &[u8]) -> Result<(usize, usize, usize), Refusal> {
    let &[n0, n1, m0, m1, k0, k1] = body else {
        return Err(Refusal::WrongLength);
    };
    let [n, m, k] = [[n0, n1], [m0, m1], [k0, k1]].map(|b| usize::from(u16::from_le_bytes(b)));
    if n > MAX_STATES || m > MAX_SYMBOLS || k > MAX_RULES {
        return Err(Refusal::AboveLimit);
    }
    Ok((n, m, k))
}

fn read_ranks(body: &[u8], symbols: usize) -> Result<Vec<u8>, Refusal> {
    if body.len() != symbols {
        return Err(Refusal::WrongLength);
    }
    if body.iter().any(|&rank| usize::from(rank) > MAX_RANK) {
        return Err(Refusal::AboveLimit);
    }
    Ok(body.to_vec())
}

fn read_finals(body: &[u8], states: usize) -> Result<Vec<u16>, Refusal> {
    let (pairs, []) = body.as_chunks() else {
        return Err(Refusal::WrongLength);
    };
    let finals: Vec<u16> = pairs.iter().copied().map(u16::from_le_bytes).collect();
    if finals.iter().any(|&state| usize::from(state) >= states) {
        return Err(Refusal::OutOfRange);
    }
    if !finals.is_sorted_by(|earlier, later| earlier < later) {
        return Err(Refusal::FinalsOutOfOrder);
    }
    Ok(finals)
}

fn read_rule(body: &[u8], ranks: &[u8], states: usize) -> Result<Rule, Refusal> {
    let &[s0, s1, t0, t1, ref children @ ..] = body else {
        return Err(Refusal::WrongLength);
    };
    let symbol = u16::from_le_bytes([s0, s1]);
    let rank = *ranks.get(usize::from(symbol)).ok_or(Refusal::OutOfRange)?;
    if children.len() != 2 * usize::from(rank) {
        return Err(Refusal::WrongLength);
    }
    let (children, _) = children.as_chunks();
    let target = u16::from_le_bytes([t0, t1]);
    let rule = Rule::from_iter(symbol, target, children.iter().copied().map(u16::from_le_bytes));
    let in_range = |&state: &u16| usize::from(state) < states;
    if !in_range(&target) || !rule.children().iter().all(in_range) {
        return Err(Refusal::OutOfRange);
    }
    Ok(rule)
}
