pub const MAX_STATES: usize = 256;
pub const MAX_SYMBOLS: usize = 256;
pub const MAX_RULES: usize = 1024;
pub const MAX_RANK: usize = 8;

/// A tree automaton. States are `0..states`, symbols `0..ranks.len()`.
#[derive(Clone, Debug, PartialEq, Eq)]
pub struct Automaton {
    pub states: usize,
    pub ranks: Vec<u8>,
    pub finals: Vec<u16>,
    pub rules: Vec<Rule>,
}

/// A rule `symbol(children) -> target`. Places of `children` from the rank on
/// hold 0.
#[derive(Clone, Copy, Debug, PartialEq, Eq, Hash)]
pub struct Rule {
    pub symbol: u16,
    pub target: u16,
    rank: u8,
    children: [u16; MAX_RANK],
}

impl Rule {
    /// Panics if there are more than `MAX_RANK` children.
    pub fn new(symbol: u16, target: u16, children: &[u16]) -> Self {
        Self::from_iter(symbol, target, children.iter().copied())
    }

    pub(crate) fn from_iter(
        symbol: u16,
        target: u16,
        from: impl ExactSizeIterator<Item = u16>,
    ) -> Self {
        let rank = from.len();
        assert!(rank <= MAX_RANK, "a rule has at most {MAX_RANK} children");
        let mut children = [0; MAX_RANK];
        for (place, child) in children.iter_mut().zip(from) {
            *place = child;
        }
        Self { symbol, target, rank: rank as u8, children }
    }

    pub fn children(&self) -> &[u16] {
        &self.children[..usize::from(self.rank)]
    }

    /// The target and the children.
    pub(crate) fn states(&self) -> impl Iterator<Item = u16> {
        [self.target].into_iter().chain(self.children().iter().copied())
    }

    /// The rule with another name for each state.
    pub(crate) fn renamed(&self, name: impl Fn(u16) -> u16) -> Self {
        let children = self.children().iter().map(|&child| name(child));
        Self::from_iter(self.symbol, name(self.target), children)
    }
}
