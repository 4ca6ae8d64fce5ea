//! The C interface as `include/fensullay.h` declares it, for callers who lend their own buffers.
//! A slice is a pointer, which is not null, and a length; what a call writes overlaps nothing else
//! that it is given.

/// Done; or yes.
pub const OK: u32 = 0;
/// The array for numbers or counts has fewer elements than the call needs.
pub const SHORT: u32 = 100;
/// Not accepted; or not simulated.
pub const NO: u32 = 101;

unsafe extern "C" {
    /// Judges a table; `numbers` gets 3 numbers: states, symbols, rules.
    pub fn fensullay_judge(
        table: *const u8,
        table_length: usize,
        numbers: *mut usize,
        numbers_length: usize,
    ) -> u32;
    /// Checks a tree against a table; `counts` holds 3: accepted, not accepted, refused. If it is
    /// not accepted, `numbers` gets 2 numbers: the node and the size of a subtree.
    pub fn fensullay_check(
        counts: *mut u32,
        counts_length: usize,
        table: *const u8,
        table_length: usize,
        tree: *const u8,
        tree_length: usize,
        numbers: *mut usize,
        numbers_length: usize,
    ) -> u32;
    /// Writes which states are simulated by which; `numbers` gets 2 numbers: rounds, pairs.
    pub fn fensullay_relate(
        table: *const u8,
        table_length: usize,
        out: *mut u8,
        out_length: usize,
        numbers: *mut usize,
        numbers_length: usize,
    ) -> u32;
    /// Whether state q is simulated by state r; if not, `numbers` gets 1 number, a rule of q.
    pub fn fensullay_compare(
        table: *const u8,
        table_length: usize,
        q: usize,
        r: usize,
        numbers: *mut usize,
        numbers_length: usize,
    ) -> u32;
    /// Writes the reduced table; `numbers` gets 6 numbers: its length, the old and new states, the
    /// old and new rules, the rounds.
    pub fn fensullay_reduce(
        table: *const u8,
        table_length: usize,
        out: *mut u8,
        out_length: usize,
        numbers: *mut usize,
        numbers_length: usize,
    ) -> u32;
    /// Writes the lines of the report on a table; `numbers` gets 1 number, their length.
    pub fn fensullay_report(
        input: *const u8,
        input_length: usize,
        out: *mut u8,
        out_length: usize,
        numbers: *mut usize,
        numbers_length: usize,
    ) -> u32;
}
