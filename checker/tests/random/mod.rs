use checker::{Automaton, Rule};

/// The xorshift generator of 64 bits with shifts 13, 7, 17.
pub struct Random(pub u64);

impl Random {
    pub fn below(&mut self, bound: usize) -> usize {
        self.0 ^= self.0 << 13;
        self.0 ^= self.0 >> 7;
        self.0 ^= self.0 << 17;
        (self.0 >> 16) as usize % bound
    }

    fn state(&mut self, states: usize) -> u16 {
        self.below(states) as u16
    }

    /// An automaton of up to so many states and rules.
    pub fn automaton(&mut self, states: usize, rules: usize) -> Automaton {
        let arities: [&[u8]; 7] =
            [&[0, 0, 2], &[0, 1, 2], &[0, 0, 1, 2], &[0, 1], &[0, 0, 0], &[3, 0, 0], &[0, 1, 1]];
        let ranks = arities[self.below(arities.len())].to_vec();
        let n = self.below(states + 1);
        let k = if n == 0 { 0 } else { self.below(rules + 1) };
        let finals = (0..n as u16).filter(|_| self.below(3) == 0).collect();
        let mut all = Vec::new();
        for _ in 0..k {
            let symbol = self.below(ranks.len());
            let children: Vec<u16> = (0..ranks[symbol]).map(|_| self.state(n)).collect();
            all.push(Rule::new(symbol as u16, self.state(n), &children));
        }
        Automaton { states: n, ranks, finals, rules: all }
    }
}
