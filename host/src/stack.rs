//! How much stack a piece of work needs: it runs on a thread whose stack is memory of ours, filled
//! with a pattern, and afterwards we look how far down the pattern is gone.

use std::ffi::c_void;
use std::hint::black_box;
use std::mem::MaybeUninit;
use std::ptr::{null, null_mut};

/// Far more than any call needs.
const SIZE: usize = 512 * 1024;
const PATTERN: u64 = 0x5a17_c0de_5a17_c0de;

/// Large enough for the attributes of any Linux.
#[repr(C, align(16))]
struct Attributes(MaybeUninit<[u8; 128]>);

type Entry = extern "C" fn(*mut c_void) -> *mut c_void;

extern "C" {
    fn pthread_attr_init(attributes: *mut Attributes) -> i32;
    fn pthread_attr_setstack(attributes: *mut Attributes, lowest: *mut c_void, size: usize) -> i32;
    fn pthread_attr_destroy(attributes: *mut Attributes) -> i32;
    fn pthread_create(
        thread: *mut usize,
        attributes: *const Attributes,
        entry: Entry,
        argument: *mut c_void,
    ) -> i32;
    fn pthread_join(thread: usize, result: *mut *mut c_void) -> i32;
}

/// The result of the call, and the bytes of stack that it used, its arguments and its answer among
/// them.
pub fn measured<T: Send>(call: impl FnOnce() -> T + Send) -> (T, usize) {
    let mut stack = vec![Page([PATTERN; 512]); SIZE / size_of::<Page>()];
    let mut work = Work {
        call: Some(call),
        result: MaybeUninit::uninit(),
        end: null(),
        top: 0,
        lowest: 0,
    };
    run_on(&mut stack, &mut work);
    // The thread has run, and has written the result.
    let result = unsafe { work.result.assume_init() };
    (result, work.top - work.lowest)
}

/// Stacks are made of whole pages.
#[derive(Clone, Copy)]
#[repr(C, align(4096))]
struct Page([u64; 512]);

struct Work<F, T> {
    call: Option<F>,
    result: MaybeUninit<T>,
    /// Where the stack ends, below.
    end: *const u64,
    /// Where it stood before the call.
    top: usize,
    /// How far down the call went.
    lowest: usize,
}

fn run_on<F: FnOnce() -> T + Send, T: Send>(stack: &mut [Page], work: &mut Work<F, T>) {
    let lowest = stack.as_mut_ptr().cast::<c_void>();
    work.end = lowest.cast();
    let argument = (work as *mut Work<F, T>).cast::<c_void>();
    let mut attributes = Attributes(MaybeUninit::uninit());
    let mut thread = 0;
    // The thread ends before this function does, so stack and work are its own as long as it runs.
    unsafe {
        succeeded(pthread_attr_init(&mut attributes));
        succeeded(pthread_attr_setstack(&mut attributes, lowest, SIZE));
        succeeded(pthread_create(
            &mut thread,
            &attributes,
            run::<F, T>,
            argument,
        ));
        succeeded(pthread_join(thread, null_mut()));
        succeeded(pthread_attr_destroy(&mut attributes));
    }
}

extern "C" fn run<F: FnOnce() -> T, T>(argument: *mut c_void) -> *mut c_void {
    // The one who made the thread waits for it and doesn't touch the work meanwhile.
    let work = unsafe { &mut *argument.cast::<Work<F, T>>() };
    let here = 0u8;
    work.top = black_box(&raw const here) as usize;
    call(work);
    // At once, for the end of a thread needs some hundreds of bytes as well. From its end up to here
    // the stack is this thread's.
    work.lowest = unsafe { first_changed(work.end) };
    null_mut()
}

/// Not part of its caller, so that all of its stack is below the mark.
#[inline(never)]
fn call<F: FnOnce() -> T, T>(work: &mut Work<F, T>) {
    if let Some(call) = work.call.take() {
        work.result.write(call());
    }
}

/// The place of the first word, from this one up, that is not the pattern. Optimised, it keeps
/// nothing on the stack.
#[inline(never)]
unsafe fn first_changed(mut word: *const u64) -> usize {
    while unsafe { word.read_volatile() } == PATTERN {
        word = unsafe { word.add(1) };
    }
    word as usize
}

fn succeeded(status: i32) {
    assert_eq!(status, 0, "threads are available");
}

#[cfg(test)]
mod tests {
    use super::measured;
    use std::hint::black_box;

    fn used<const BYTES: usize>() -> usize {
        measured(|| black_box([1u8; BYTES])[BYTES / 2]).1
    }

    /// An array on the stack shows, and in a release build not much else.
    #[test]
    fn measures_what_is_used() {
        assert!(used::<1>() < 100);
        assert!((10_000..11_000).contains(&used::<10_000>()));
        assert!((100_000..101_000).contains(&used::<100_000>()));
    }
}
