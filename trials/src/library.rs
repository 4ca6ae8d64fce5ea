pub use fensullay::sys::{NO, OK, SHORT};

use checker::Refusal;

use crate::Lent;

pub const ROOM: u32 = 13;

/// The bytes of the relation to a state.
pub const RELATION_ROW: usize = 32;

/// How many numbers each call needs.
pub const JUDGE_NUMBERS: usize = 3;
pub const CHECK_COUNTS: usize = 3;
pub const CHECK_NUMBERS: usize = 2;
pub const RELATE_NUMBERS: usize = 2;
pub const COMPARE_NUMBERS: usize = 1;
pub const REDUCE_NUMBERS: usize = 6;
pub const REPORT_NUMBERS: usize = 1;

/// The arrays that a check may write.
pub struct CheckArrays<'a> {
    pub counts: &'a mut Lent<u32>,
    pub numbers: &'a mut Lent<usize>,
}

/// The calls of `fensullay.h`. All memory is lent so that it could be written:
/// what a call does to memory that it must leave is to be seen.
pub trait Library {
    fn judge(&self, table: &mut Lent<u8>, numbers: &mut Lent<usize>) -> u32;

    fn check(&self, table: &mut Lent<u8>, tree: &mut Lent<u8>, arrays: CheckArrays<'_>) -> u32;

    fn relate(&self, table: &mut Lent<u8>, out: &mut Lent<u8>, numbers: &mut Lent<usize>) -> u32;

    fn compare(&self, table: &mut Lent<u8>, q: usize, r: usize, numbers: &mut Lent<usize>) -> u32;

    fn reduce(&self, table: &mut Lent<u8>, out: &mut Lent<u8>, numbers: &mut Lent<usize>) -> u32;

    fn report(&self, input: &mut Lent<u8>, out: &mut Lent<u8>, numbers: &mut Lent<usize>) -> u32;
}

/// What a call answers, its values at the start of `numbers`.
pub fn answer<const N: usize>(
    numbers: &mut Lent<usize>,
    call: impl FnOnce() -> Result<[usize; N], Refusal>,
) -> u32 {
    let Some(place) = numbers.content_mut().first_chunk_mut() else { return SHORT };
    match call() {
        Ok(values) => {
            *place = values;
            OK
        }
        Err(refusal) => number(refusal),
    }
}

pub fn number(refusal: Refusal) -> u32 {
    refusal.number().into()
}
