//! The stack that a call needs: it runs on a thread whose stack is painted, and
//! the lowest byte that lost its paint says how deep it went.

use std::ffi::{c_int, c_ulong, c_void};
use std::hint::black_box;
use std::mem::MaybeUninit;
use std::ptr;

use fensullay::sys;
use trials::{Call, Loan, Swift};

const PAGE: usize = 4096;
const PAGES: usize = 256;
const PAINT: u8 = 0xa5;

/// More than a thread takes when it starts and ends.
const BASE: usize = 2 * PAGE;

#[derive(Clone, Copy)]
#[repr(align(4096))]
struct Page([u8; PAGE]);

type Start = extern "C" fn(*mut c_void) -> *mut c_void;

/// A `pthread_attr_t`, which has 56 bytes.
#[repr(C)]
struct Attributes([u64; 8]);

unsafe extern "C" {
    fn pthread_attr_init(attributes: *mut Attributes) -> c_int;
    fn pthread_attr_setstack(attributes: *mut Attributes, stack: *mut c_void, size: usize)
    -> c_int;
    fn pthread_attr_destroy(attributes: *mut Attributes) -> c_int;
    fn pthread_create(
        thread: *mut c_ulong,
        attributes: *const Attributes,
        start: Start,
        argument: *mut c_void,
    ) -> c_int;
    fn pthread_join(thread: c_ulong, value: *mut *mut c_void) -> c_int;
}

/// The bytes of stack that a call of the proved library needs on this memory.
pub fn of_library(call: &Call, loan: &mut Loan) -> usize {
    let (input, input_length) = (loan.input.start(), loan.input.length());
    let (tree, tree_length) = (loan.tree.start(), loan.tree.length());
    let (out, out_length) = (loan.out.start(), loan.out.length());
    let (numbers, count) = (loan.numbers.start(), loan.numbers.length());
    let (counts, counts_length) = (loan.counts.start(), loan.counts.length());
    // SAFETY: the pointers and lengths name memory that is borrowed until the
    // call has ended, and no two of them overlap.
    needed(&mut || unsafe {
        match *call {
            Call::Judge { .. } => sys::fensullay_judge(input, input_length, numbers, count),
            Call::Check { .. } => sys::fensullay_check(
                counts,
                counts_length,
                input,
                input_length,
                tree,
                tree_length,
                numbers,
                count,
            ),
            Call::Relate { .. } => {
                sys::fensullay_relate(input, input_length, out, out_length, numbers, count)
            }
            Call::Compare { q, r, .. } => {
                sys::fensullay_compare(input, input_length, q, r, numbers, count)
            }
            Call::Reduce { .. } => {
                sys::fensullay_reduce(input, input_length, out, out_length, numbers, count)
            }
            Call::Report { .. } => {
                sys::fensullay_report(input, input_length, out, out_length, numbers, count)
            }
        };
    })
}

/// The bytes of stack that plain Rust needs for a call on this memory.
pub fn of_plain(call: &Call, loan: &mut Loan) -> usize {
    needed(&mut || {
        call.pass(&Swift, loan);
    })
}

/// How much deeper than nothing some work goes.
fn needed(work: Work) -> usize {
    depth(work) - depth(&mut || {})
}

type Work<'a> = &'a mut dyn FnMut();

/// How deep a thread goes on its stack.
fn depth(mut work: Work) -> usize {
    let mut stack = vec![Page([PAINT; PAGE]); PAGES];
    run_on(&mut stack, start, ptr::from_mut(&mut work).cast());
    let bytes = stack.iter().flat_map(|page| page.0);
    let untouched = bytes.take_while(|&byte| byte == PAINT).count();
    assert!(untouched > 0, "the stack is too small");
    PAGE * PAGES - untouched
}

/// Does the work below what the thread itself takes of the stack.
extern "C" fn start(work: *mut c_void) -> *mut c_void {
    let base = MaybeUninit::<[u8; BASE]>::uninit();
    black_box(&base);
    // SAFETY: the argument is a `Work` that is borrowed until the thread has
    // ended.
    unsafe { (*work.cast::<Work>())() };
    black_box(&base);
    ptr::null_mut()
}

fn run_on(stack: &mut [Page], start: Start, argument: *mut c_void) {
    let mut attributes = Attributes([0; 8]);
    let mut thread = 0;
    let mut value = ptr::null_mut();
    // SAFETY: the stack is borrowed until the thread has ended, and the argument
    // is what the start routine takes.
    unsafe {
        assert_eq!(pthread_attr_init(&mut attributes), 0);
        let place = stack.as_mut_ptr().cast();
        assert_eq!(pthread_attr_setstack(&mut attributes, place, size_of_val(stack)), 0);
        assert_eq!(pthread_create(&mut thread, &attributes, start, argument), 0);
        assert_eq!(pthread_join(thread, &mut value), 0);
        assert_eq!(pthread_attr_destroy(&mut attributes), 0);
    }
}
