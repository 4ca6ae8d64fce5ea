use crate::table::{FINALS, HEADER, RANKS, RULE};
use crate::{Automaton, Refusal, Rule};

impl Automaton {
    /// The number of bytes of the automaton's table.
    pub fn encoded_len(&self) -> usize {
        let rules: usize = self.rules.iter().map(|rule| 6 + rule_len(rule)).sum();
        (6 + 6) + (6 + self.ranks.len()) + (6 + 2 * self.finals.len()) + rules
    }

    /// Writes the automaton's table at the start of `out` and returns its
    /// length. Bytes behind it stay; if `out` is too short, all stay.
    pub fn write(&self, out: &mut [u8]) -> Result<usize, Refusal> {
        let length = self.encoded_len();
        let rest = out.get_mut(..length).ok_or(Refusal::ShortOutput)?;

        let rest = put_head(rest, HEADER, 6);
        let counts = [self.states, self.ranks.len(), self.rules.len()];
        let rest = put_words(rest, counts.map(|count| count as u16));

        let rest = put_head(rest, RANKS, self.ranks.len());
        let rest = put(rest, &self.ranks);

        let rest = put_head(rest, FINALS, 2 * self.finals.len());
        let mut rest = put_words(rest, self.finals.iter().copied());

        for rule in &self.rules {
            rest = put_head(rest, RULE, rule_len(rule));
            rest = put_words(rest, [rule.symbol, rule.target]);
            rest = put_words(rest, rule.children().iter().copied());
        }
        debug_assert!(rest.is_empty());
        Ok(length)
    }

    /// The automaton's table.
    pub fn encode(&self) -> Vec<u8> {
        let mut out = vec![0; self.encoded_len()];
        self.write(&mut out).expect("the output is as long as the table");
        out
    }
}

fn rule_len(rule: &Rule) -> usize {
    4 + 2 * rule.children().len()
}

/// Puts a record's length and kind at the start of `out` and returns the rest.
fn put_head(out: &mut [u8], kind: u16, body: usize) -> &mut [u8] {
    let rest = put(out, &(2 + body as u32).to_le_bytes());
    put_words(rest, [kind])
}

fn put_words(out: &mut [u8], words: impl IntoIterator<Item = u16>) -> &mut [u8] {
    words.into_iter().fold(out, |out, word| put(out, &word.to_le_bytes()))
}

fn put<'a>(out: &'a mut [u8], bytes: &[u8]) -> &'a mut [u8] {
    let (place, rest) = out.split_at_mut(bytes.len());
    place.copy_from_slice(bytes);
    rest
}
