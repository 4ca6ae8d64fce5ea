use crate::random::mix;

const GUARD: usize = 16;

/// Memory that is lent to a call, with guards before and behind it.
#[derive(Clone, Debug)]
pub struct Lent<T> {
    cells: Vec<T>,
    fill: u64,
}

/// What memory is filled with.
pub trait Fill: Copy + PartialEq {
    fn from_bits(bits: u64) -> Self;
}

impl Fill for u8 {
    fn from_bits(bits: u64) -> Self {
        bits as Self
    }
}

impl Fill for u32 {
    fn from_bits(bits: u64) -> Self {
        bits as Self
    }
}

impl Fill for usize {
    fn from_bits(bits: u64) -> Self {
        bits as Self
    }
}

impl<T: Fill> Lent<T> {
    /// Memory that holds `content`.
    pub fn holding(content: &[T], fill: u64) -> Self {
        let guard = |from: usize| (from..from + GUARD).map(move |at| pattern::<T>(fill, at));
        let mut cells = Vec::with_capacity(content.len() + 2 * GUARD);
        cells.extend(guard(0));
        cells.extend_from_slice(content);
        cells.extend(guard(GUARD));
        Self { cells, fill }
    }

    /// Memory of this length, filled with what `fill` gives.
    pub fn filled(length: usize, fill: u64) -> Self {
        let content: Vec<T> = (0..length).map(|at| pattern(fill, 2 * GUARD + at)).collect();
        Self::holding(&content, fill)
    }

    pub fn length(&self) -> usize {
        self.cells.len() - 2 * GUARD
    }

    /// Where the lent memory begins. The pointer may be used for the guards too.
    pub fn start(&mut self) -> *mut T {
        self.cells.as_mut_ptr().wrapping_add(GUARD)
    }

    pub fn content(&self) -> &[T] {
        &self.cells[GUARD..self.cells.len() - GUARD]
    }

    pub fn content_mut(&mut self) -> &mut [T] {
        let end = self.cells.len() - GUARD;
        &mut self.cells[GUARD..end]
    }

    /// Whether the guards are as they were.
    pub fn guarded(&self) -> bool {
        let (before, rest) = self.cells.split_at(GUARD);
        let behind = &rest[rest.len() - GUARD..];
        let mut guards = before.iter().chain(behind).enumerate();
        guards.all(|(at, &cell)| cell == pattern(self.fill, at))
    }
}

fn pattern<T: Fill>(fill: u64, at: usize) -> T {
    T::from_bits(mix(fill.wrapping_add(at as u64)))
}

#[cfg(test)]
mod tests {
    use super::*;

    #[test]
    fn guards_tell_what_is_written_beside_the_content() {
        for at in [-(GUARD as isize), -1, 5, 5 + GUARD as isize - 1] {
            let mut lent: Lent<u8> = Lent::filled(5, 7);
            let place = lent.start().wrapping_offset(at);
            // SAFETY: the place is in a guard.
            unsafe { *place = !*place };
            assert!(!lent.guarded(), "{at}");
        }
    }

    #[test]
    fn guards_stay_where_the_content_is_written() {
        let mut lent: Lent<usize> = Lent::holding(&[1, 2, 3], 7);
        lent.content_mut().fill(0);
        assert!(lent.guarded());
        assert_eq!(lent.content(), [0; 3]);
    }
}
