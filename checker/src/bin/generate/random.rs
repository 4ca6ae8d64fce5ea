//! Random tables, trees and byte strings, the same at each run.

use crate::layout::{finals, header, ranks, record, rule, tree};

/// The xorshift generator of 64 bits with shifts 13, 7, 17.
pub struct Random(u64);

impl Random {
    pub fn new(seed: u64) -> Self {
        assert_ne!(seed, 0);
        Self(seed)
    }

    fn next(&mut self) -> u64 {
        self.0 ^= self.0 << 13;
        self.0 ^= self.0 >> 7;
        self.0 ^= self.0 << 17;
        self.0
    }

    /// A number below `bound`.
    pub fn below(&mut self, bound: usize) -> usize {
        (self.next() >> 16) as usize % bound
    }

    fn byte(&mut self) -> u8 {
        self.below(256) as u8
    }

    /// A byte that is below 10 three times out of four.
    fn any_byte(&mut self) -> u8 {
        if self.below(4) == 0 { self.byte() } else { self.below(10) as u8 }
    }

    /// A well-formed table of up to 6 states, 4 symbols of rank up to 3 and
    /// 8 rules.
    pub fn table(&mut self) -> Vec<u8> {
        let n = self.below(7);
        let m = self.below(5);
        let k = if n == 0 || m == 0 { 0 } else { self.below(9) };
        let arity: Vec<u8> = (0..m).map(|_| self.below(4) as u8).collect();
        self.table_of(n, &arity, k)
    }

    /// A table of 2 to 5 states in which a tree belongs to about half of them,
    /// and before it the ranks of its symbols.
    pub fn dense_table(&mut self) -> (Vec<u8>, Vec<u8>) {
        let n = 2 + self.below(4);
        let m = 2 + self.below(3);
        let mut arity: Vec<u8> = (0..m).map(|_| self.below(4) as u8).collect();
        arity[self.below(m)] = 0;
        let mut accepting: Vec<u16> = (0..n as u16).collect();
        self.shuffle(&mut accepting);
        accepting.truncate(1 + self.below(n / 2));
        accepting.sort_unstable();
        let mut rules = Vec::new();
        for (symbol, &rank) in arity.iter().enumerate() {
            for _ in 0..((5 * n) << rank).div_ceil(8) {
                rules.push(self.rule(symbol, rank, n));
            }
        }
        self.shuffle(&mut rules);
        let mut bytes = header(n as u16, m as u16, rules.len() as u16);
        bytes.extend(ranks(&arity));
        bytes.extend(finals(&accepting));
        bytes.extend(rules.concat());
        (arity, bytes)
    }

    /// A well-formed table of these states and rules, and 2 or 3 symbols.
    pub fn sparse_table(&mut self, n: usize, k: usize) -> Vec<u8> {
        let m = 2 + self.below(2);
        let arity: Vec<u8> = (0..m).map(|_| self.below(4) as u8).collect();
        self.table_of(n, &arity, k)
    }

    fn table_of(&mut self, n: usize, arity: &[u8], k: usize) -> Vec<u8> {
        let accepting: Vec<u16> = (0..n as u16).filter(|_| self.below(2) == 0).collect();
        let mut bytes = header(n as u16, arity.len() as u16, k as u16);
        bytes.extend(ranks(arity));
        bytes.extend(finals(&accepting));
        for _ in 0..k {
            let symbol = self.below(arity.len());
            bytes.extend(self.rule(symbol, arity[symbol], n));
        }
        bytes
    }

    /// A well-formed table of up to 10 states and up to 4 symbols, all of rank 0.
    pub fn leaf_table(&mut self) -> Vec<u8> {
        let n = 1 + self.below(10);
        let m = 1 + self.below(4);
        let k = n + self.below(2 * n);
        self.table_of(n, &vec![0; m], k)
    }

    /// A well-formed table of 2 to 12 states, each the target of one or two rules
    /// of rank 1, and of one to three rules of a leaf.
    pub fn unary_table(&mut self) -> Vec<u8> {
        let n = 2 + self.below(11);
        let step = self.below(2);
        let arity = if step == 0 { vec![1, 0] } else { vec![0, 1] };
        let mut rules = Vec::new();
        for target in 0..n as u16 {
            for _ in 0..=self.below(4) / 3 {
                rules.push(rule(step as u16, target, &[self.below(n) as u16]));
            }
        }
        for _ in 0..=self.below(3) {
            rules.push(rule(1 - step as u16, self.below(n) as u16, &[]));
        }
        self.shuffle(&mut rules);
        self.table_with(n, &arity, &rules)
    }

    /// A well-formed table of states for leaves, states above them and states
    /// above both, in which many rules are outdone.
    pub fn layered_table(&mut self) -> Vec<u8> {
        let arity = [0, 0, 1, 2];
        let leaves = 2 + self.below(3);
        let middle = leaves + 1 + self.below(3);
        let n = middle + 1 + self.below(2);
        let mut rules = Vec::new();
        for target in 0..leaves {
            rules.push(rule(self.below(2) as u16, target as u16, &[]));
            if self.below(2) == 0 {
                rules.push(rule(self.below(2) as u16, target as u16, &[]));
            }
        }
        for target in leaves..n {
            let below = if target < middle { leaves } else { middle };
            for _ in 0..2 + self.below(4) {
                let symbol = 2 + self.below(2);
                let children: Vec<u16> =
                    (0..arity[symbol]).map(|_| self.below(below) as u16).collect();
                rules.push(rule(symbol as u16, target as u16, &children));
            }
        }
        self.shuffle(&mut rules);
        self.table_with(n, &arity, &rules)
    }

    /// A well-formed table in which each state of a smaller one stands one to
    /// three times, and no tree belongs to up to two more.
    pub fn unfolded_table(&mut self) -> Vec<u8> {
        let arity = [0, 0, 1, 2];
        let copies: Vec<usize> = (0..2 + self.below(3)).map(|_| 1 + self.below(3)).collect();
        let live: usize = copies.iter().sum();
        let n = live + self.below(3);
        let mut names: Vec<u16> = (0..n as u16).collect();
        self.shuffle(&mut names);
        let (live, dead) = names.split_at(live);
        let mut rest = live;
        let groups: Vec<&[u16]> = copies
            .iter()
            .map(|&count| rest.split_off(..count).expect("there are as many names as copies"))
            .collect();

        let mut rules = Vec::new();
        for _ in 0..groups.len() + 1 + self.below(4) {
            let symbol = self.below(arity.len());
            let target = groups[self.below(groups.len())];
            let children: Vec<&[u16]> =
                (0..arity[symbol]).map(|_| groups[self.below(groups.len())]).collect();
            for &target in target {
                for _ in 0..=self.below(2) {
                    let one = |group: &&[u16]| group[self.below(group.len())];
                    let children: Vec<u16> = children.iter().map(one).collect();
                    rules.push(rule(symbol as u16, target, &children));
                }
            }
        }
        for &state in dead {
            rules.push(rule(2, state, &[state]));
            rules.push(rule(3, names[self.below(n)], &[names[self.below(n)], state]));
        }
        self.shuffle(&mut rules);
        self.table_with(n, &arity, &rules)
    }

    /// A table of these rules, with some of its states final.
    fn table_with(&mut self, n: usize, arity: &[u8], rules: &[Vec<u8>]) -> Vec<u8> {
        let accepting: Vec<u16> = (0..n as u16).filter(|_| self.below(3) == 0).collect();
        let mut bytes = header(n as u16, arity.len() as u16, rules.len() as u16);
        bytes.extend(ranks(arity));
        bytes.extend(finals(&accepting));
        bytes.extend(rules.concat());
        bytes
    }

    fn rule(&mut self, symbol: usize, rank: u8, states: usize) -> Vec<u8> {
        let target = self.below(states) as u16;
        let children: Vec<u16> = (0..rank).map(|_| self.below(states) as u16).collect();
        rule(symbol as u16, target, &children)
    }

    fn shuffle<T>(&mut self, items: &mut [T]) {
        for last in (1..items.len()).rev() {
            items.swap(last, self.below(last + 1));
        }
    }

    /// The symbols of a tree of height up to 4, in postfix order. One rank
    /// must be 0.
    pub fn symbols(&mut self, arity: &[u8]) -> Vec<u16> {
        let mut symbols = Vec::new();
        let height = 2 + self.below(3);
        self.grow(arity, height, &mut symbols);
        symbols
    }

    fn grow(&mut self, arity: &[u8], height: usize, symbols: &mut Vec<u16>) {
        let leaf = height == 0 || arity.iter().all(|&rank| rank == 0);
        let symbol = loop {
            let symbol = self.below(arity.len());
            if (arity[symbol] == 0) == leaf {
                break symbol;
            }
        };
        for _ in 0..arity[symbol] {
            let height = if self.below(6) == 0 { 0 } else { height - 1 };
            self.grow(arity, height, symbols);
        }
        symbols.push(symbol as u16);
    }

    /// A random tree with one or two changes to its nodes, or one to three to
    /// its bytes.
    pub fn spoilt_tree(&mut self, arity: &[u8]) -> Vec<u8> {
        let mut symbols = self.symbols(arity);
        if self.below(3) > 0 {
            for _ in 0..=self.below(2) {
                self.spoil_nodes(arity.len(), &mut symbols);
            }
            return tree(&symbols);
        }
        let mut bytes = tree(&symbols);
        for _ in 0..=self.below(3) {
            self.spoil(&mut bytes);
        }
        bytes
    }

    fn spoil_nodes(&mut self, m: usize, symbols: &mut Vec<u16>) {
        if symbols.is_empty() {
            return;
        }
        let place = self.below(symbols.len());
        let symbol = self.below(m + 1) as u16;
        match self.below(4) {
            0 => symbols[place] = symbol,
            1 => symbols.insert(place, symbol),
            2 => drop(symbols.remove(place)),
            _ => {
                let other = self.below(symbols.len());
                symbols.swap(place, other);
            }
        }
    }

    /// Three counts.
    pub fn counts(&mut self) -> [u32; 3] {
        std::array::from_fn(|_| self.next() as u32)
    }

    /// A random table with one to three changes.
    pub fn spoilt_table(&mut self) -> Vec<u8> {
        let mut bytes = self.table();
        for _ in 0..=self.below(3) {
            self.spoil(&mut bytes);
        }
        bytes
    }

    fn spoil(&mut self, bytes: &mut Vec<u8>) {
        if bytes.is_empty() {
            return;
        }
        let place = self.below(bytes.len());
        match self.below(8) {
            0..5 => bytes[place] = self.any_byte(),
            5 => bytes.insert(place, self.any_byte()),
            6 => drop(bytes.remove(place)),
            _ => bytes.truncate(place),
        }
    }

    /// Up to 40 random bytes.
    pub fn bytes(&mut self) -> Vec<u8> {
        (0..self.below(41)).map(|_| self.byte()).collect()
    }

    /// Up to 40 bytes of random records, the last often cut.
    pub fn records(&mut self) -> Vec<u8> {
        let length = self.below(41);
        let mut bytes = Vec::new();
        while bytes.len() < length {
            let kind = 1 + bytes.len() / 12 + self.below(4) / 3;
            let body: Vec<u8> = (0..2 * self.below(4)).map(|_| self.below(4) as u8).collect();
            bytes.extend(record(kind as u16, &body));
        }
        if self.below(2) == 0 || bytes.len() > 40 {
            bytes.truncate(length);
        }
        bytes
    }
}
