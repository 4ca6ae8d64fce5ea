//! The C functions on slices.

use fensullay::sys;

pub fn judge(table: &[u8], numbers: &mut [usize]) -> u32 {
    unsafe {
        sys::fensullay_judge(table.as_ptr(), table.len(), numbers.as_mut_ptr(), numbers.len())
    }
}

pub fn check(counts: &mut [u32], table: &[u8], tree: &[u8], numbers: &mut [usize]) -> u32 {
    unsafe {
        sys::fensullay_check(
            counts.as_mut_ptr(),
            counts.len(),
            table.as_ptr(),
            table.len(),
            tree.as_ptr(),
            tree.len(),
            numbers.as_mut_ptr(),
            numbers.len(),
        )
    }
}

pub fn relate(table: &[u8], out: &mut [u8], numbers: &mut [usize]) -> u32 {
    unsafe {
        sys::fensullay_relate(
            table.as_ptr(),
            table.len(),
            out.as_mut_ptr(),
            out.len(),
            numbers.as_mut_ptr(),
            numbers.len(),
        )
    }
}

pub fn compare(table: &[u8], q: usize, r: usize, numbers: &mut [usize]) -> u32 {
    unsafe {
        sys::fensullay_compare(
            table.as_ptr(),
            table.len(),
            q,
            r,
            numbers.as_mut_ptr(),
            numbers.len(),
        )
    }
}

pub fn reduce(table: &[u8], out: &mut [u8], numbers: &mut [usize]) -> u32 {
    unsafe {
        sys::fensullay_reduce(
            table.as_ptr(),
            table.len(),
            out.as_mut_ptr(),
            out.len(),
            numbers.as_mut_ptr(),
            numbers.len(),
        )
    }
}

pub fn report(input: &[u8], out: &mut [u8], numbers: &mut [usize]) -> u32 {
    unsafe {
        sys::fensullay_report(
            input.as_ptr(),
            input.len(),
            out.as_mut_ptr(),
            out.len(),
            numbers.as_mut_ptr(),
            numbers.len(),
        )
    }
}
