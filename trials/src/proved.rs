use fensullay::sys;

use crate::{CheckArrays, Lent, Library};

/// The static library.
#[derive(Clone, Copy, Debug)]
pub struct Proved;

// SAFETY, for all calls: each pointer and its length name memory that is lent
// by an exclusive borrow, and no two of them overlap.
impl Library for Proved {
    fn judge(&self, table: &mut Lent<u8>, numbers: &mut Lent<usize>) -> u32 {
        unsafe {
            sys::fensullay_judge(table.start(), table.length(), numbers.start(), numbers.length())
        }
    }

    fn check(&self, table: &mut Lent<u8>, tree: &mut Lent<u8>, arrays: CheckArrays<'_>) -> u32 {
        let CheckArrays { counts, numbers } = arrays;
        unsafe {
            sys::fensullay_check(
                counts.start(),
                counts.length(),
                table.start(),
                table.length(),
                tree.start(),
                tree.length(),
                numbers.start(),
                numbers.length(),
            )
        }
    }

    fn relate(&self, table: &mut Lent<u8>, out: &mut Lent<u8>, numbers: &mut Lent<usize>) -> u32 {
        writing(sys::fensullay_relate, table, out, numbers)
    }

    fn compare(&self, table: &mut Lent<u8>, q: usize, r: usize, numbers: &mut Lent<usize>) -> u32 {
        let (table, table_length) = (table.start(), table.length());
        unsafe {
            sys::fensullay_compare(table, table_length, q, r, numbers.start(), numbers.length())
        }
    }

    fn reduce(&self, table: &mut Lent<u8>, out: &mut Lent<u8>, numbers: &mut Lent<usize>) -> u32 {
        writing(sys::fensullay_reduce, table, out, numbers)
    }

    fn report(&self, input: &mut Lent<u8>, out: &mut Lent<u8>, numbers: &mut Lent<usize>) -> u32 {
        writing(sys::fensullay_report, input, out, numbers)
    }
}

/// A call that reads some bytes, writes others and gives some numbers.
type Writing = unsafe extern "C" fn(*const u8, usize, *mut u8, usize, *mut usize, usize) -> u32;

fn writing(
    call: Writing,
    input: &mut Lent<u8>,
    out: &mut Lent<u8>,
    numbers: &mut Lent<usize>,
) -> u32 {
    let (input, input_length) = (input.start(), input.length());
    let (out, out_length) = (out.start(), out.length());
    unsafe { call(input, input_length, out, out_length, numbers.start(), numbers.length()) }
}
