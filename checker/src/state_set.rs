use crate::MAX_STATES;

const WORDS: usize = MAX_STATES / 64;

/// A set of states, one bit for each.
#[derive(Clone, Copy, Debug, Default, PartialEq, Eq)]
pub struct StateSet([u64; WORDS]);

impl StateSet {
    pub const EMPTY: Self = Self([0; WORDS]);

    /// The states below `states`.
    pub fn below(states: usize) -> Self {
        (0..states as u16).collect()
    }

    pub fn contains(&self, state: u16) -> bool {
        self.0[usize::from(state / 64)] >> (state % 64) & 1 == 1
    }

    pub fn insert(&mut self, state: u16) {
        self.0[usize::from(state / 64)] |= 1 << (state % 64);
    }

    pub fn remove(&mut self, state: u16) {
        self.0[usize::from(state / 64)] &= !(1 << (state % 64));
    }

    /// The states of this set that are not in `other`.
    pub fn difference(&self, other: &Self) -> Self {
        Self(std::array::from_fn(|i| self.0[i] & !other.0[i]))
    }

    pub fn is_empty(&self) -> bool {
        self.0 == [0; WORDS]
    }

    pub fn len(&self) -> usize {
        self.0.iter().map(|word| word.count_ones() as usize).sum()
    }

    /// State `r` is bit `r % 8` of byte `r / 8`.
    pub fn to_bytes(&self) -> [u8; MAX_STATES / 8] {
        let mut bytes = [0; MAX_STATES / 8];
        for (place, word) in bytes.as_chunks_mut().0.iter_mut().zip(self.0) {
            *place = word.to_le_bytes();
        }
        bytes
    }
}

impl FromIterator<u16> for StateSet {
    fn from_iter<I: IntoIterator<Item = u16>>(states: I) -> Self {
        let mut set = Self::EMPTY;
        for state in states {
            set.insert(state);
        }
        set
    }
}

#[cfg(test)]
mod tests {
    use super::*;

    const EDGES: [u16; 8] = [0, 63, 64, 127, 128, 191, 192, 255];

    #[test]
    fn states_come_and_go() {
        let mut set: StateSet = EDGES.into_iter().collect();
        assert_eq!(set.len(), 8);
        for state in 0..256 {
            assert_eq!(set.contains(state), EDGES.contains(&state), "{state}");
        }
        for state in EDGES {
            assert!(!set.is_empty());
            set.remove(state);
        }
        assert!(set.is_empty());
        assert_eq!(set, StateSet::EMPTY);
    }

    #[test]
    fn difference_takes_the_common_states_away() {
        let set = StateSet::below(200).difference(&StateSet::below(70));
        assert_eq!(set, (70..200).collect());
    }

    #[test]
    fn below_ends_before_its_bound() {
        for states in [0, 1, 63, 64, 65, 255, 256] {
            let set = StateSet::below(states);
            assert_eq!(set.len(), states);
            assert_eq!(set.contains(255), states == 256);
        }
    }

    #[test]
    fn the_lowest_state_is_the_lowest_bit_of_the_first_byte() {
        let bytes = StateSet::from_iter([0, 9, 66, 255]).to_bytes();
        let set: Vec<_> = bytes.into_iter().enumerate().filter(|&(_, byte)| byte != 0).collect();
        assert_eq!(set, [(0, 1), (1, 2), (8, 4), (31, 128)]);
    }
}
