/// The words of a set.
pub const WORDS: usize = 4;

/// A set of numbers below 256, one bit for each: states, or symbols.
#[derive(Clone, Copy, Debug, PartialEq, Eq)]
pub struct Set([u64; WORDS]);

impl Set {
    pub const EMPTY: Self = Self([0; WORDS]);

    /// The set of these four words.
    pub fn of_words(word: impl Fn(usize) -> u64) -> Self {
        Self([word(0), word(1), word(2), word(3)])
    }

    /// The numbers below `count`.
    pub fn below(count: usize) -> Self {
        (0..count).map(|number| number as u8).collect()
    }

    pub fn has(&self, number: u8) -> bool {
        self.bit(number) == 1
    }

    /// 1 if a number is in the set, or else 0.
    pub fn bit(&self, number: u8) -> u64 {
        self.0[usize::from(number / 64)] >> (number % 64) & 1
    }

    pub fn insert(&mut self, number: u8) {
        self.insert_bit(number, 1);
    }

    /// Inserts a number if the bit is 1, and does nothing if it is 0.
    pub fn insert_bit(&mut self, number: u8, bit: u64) {
        self.0[usize::from(number / 64)] |= bit << (number % 64);
    }

    pub fn remove(&mut self, number: u8) {
        self.0[usize::from(number / 64)] &= !(1 << (number % 64));
    }

    /// Takes out the numbers that are not to be kept.
    pub fn retain(&mut self, keep: impl Fn(u8) -> bool) {
        for (at, word) in self.0.iter_mut().enumerate() {
            let mut left = *word;
            while left != 0 {
                let bit = left.trailing_zeros() as u8;
                left &= left - 1;
                *word ^= u64::from(!keep(64 * at as u8 + bit)) << bit;
            }
        }
    }

    pub fn is_empty(&self) -> bool {
        self.0.iter().all(|&word| word == 0)
    }

    pub fn len(&self) -> usize {
        self.0.iter().map(|word| word.count_ones() as usize).sum()
    }

    pub fn and(&self, other: &Self) -> Self {
        Self::of_words(|at| self.0[at] & other.0[at])
    }

    /// Number `r` is bit `r % 8` of byte `r / 8`.
    pub fn to_bytes(self) -> [u8; 32] {
        let mut bytes = [0; 32];
        for (place, word) in bytes.as_chunks_mut().0.iter_mut().zip(self.0) {
            *place = word.to_le_bytes();
        }
        bytes
    }
}

impl FromIterator<u8> for Set {
    fn from_iter<I: IntoIterator<Item = u8>>(numbers: I) -> Self {
        let mut set = Self::EMPTY;
        for number in numbers {
            set.insert(number);
        }
        set
    }
}

/// The numbers of a set, rising.
impl IntoIterator for Set {
    type Item = u8;
    type IntoIter = Numbers;

    fn into_iter(self) -> Numbers {
        Numbers { words: self.0, at: 0 }
    }
}

pub struct Numbers {
    words: [u64; WORDS],
    at: usize,
}

impl Iterator for Numbers {
    type Item = u8;

    fn next(&mut self) -> Option<u8> {
        loop {
            let word = self.words.get_mut(self.at)?;
            if *word != 0 {
                let bit = word.trailing_zeros() as u8;
                *word &= *word - 1;
                return Some(64 * self.at as u8 + bit);
            }
            self.at += 1;
        }
    }
}
