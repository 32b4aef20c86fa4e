//! A thread whose stack is memory of ours: painted before, and looked at after, so that it shows how far down the thread
//! has written.
//!
//! Rust's own threads do not say where their stack is, so the thread is made by the C library's functions. All `unsafe` of
//! the benchmarks is here.

use std::ffi::{c_int, c_void};
use std::hint::black_box;
use std::mem::MaybeUninit;
use std::process::abort;
use std::ptr::{null_mut, NonNull};

/// Bytes of a page, to which a stack is aligned.
const PAGE: usize = 4_096;
/// Pages of the stack: many times what any call takes, as there is no guard below it.
const PAGES: usize = 2_048;
/// A byte that code seldom writes; should it write one as the lowest, the figure is a few bytes too small.
const PAINT: u8 = 0xA5;

#[derive(Clone)]
#[repr(C, align(4096))]
struct Page([u8; PAGE]);

/// As large as, or larger than, the C library's own on x86-64 Linux, which has 56 bytes.
#[repr(C, align(16))]
struct Attributes([u8; 128]);

type Start = extern "C" fn(*mut c_void) -> *mut c_void;

extern "C" {
    fn pthread_attr_init(attributes: *mut Attributes) -> c_int;
    fn pthread_attr_setstack(attributes: *mut Attributes, lowest: *mut c_void, size: usize) -> c_int;
    fn pthread_attr_destroy(attributes: *mut Attributes) -> c_int;
    fn pthread_create(thread: *mut usize, attributes: *const Attributes, start: Start, argument: *mut c_void) -> c_int;
    fn pthread_join(thread: usize, value: *mut *mut c_void) -> c_int;
}

/// What the thread does.
struct Task<'a> {
    run: &'a mut (dyn FnMut() + Send),
}

/// Bytes of stack of a thread that makes this call and does nothing else: from the top down to the lowest byte written.
pub fn taken<T>(mut call: impl FnMut() -> T + Send) -> Result<usize, String> {
    let mut stack = vec![Page([PAINT; PAGE]); PAGES];
    let mut run = || drop(black_box(call()));
    run_on(&mut stack, &mut Task { run: &mut run })?;
    let lowest = stack.iter().flat_map(|page| &page.0).position(|&byte| byte != PAINT);
    let lowest = lowest.filter(|&lowest| lowest >= PAGE).ok_or("the stack is too small")?;
    Ok(PAGES * PAGE - lowest)
}

/// Runs the task in a thread on this stack, and waits for its end.
fn run_on(stack: &mut [Page], task: &mut Task) -> Result<(), String> {
    let mut attributes = MaybeUninit::uninit();
    let attributes = attributes.as_mut_ptr();
    let mut thread = 0;
    // SAFETY: the attributes are initialized first and destroyed last. The stack is aligned and as long as is said; it and
    // the task are borrowed until the thread has ended, which the join waits for: nothing goes on where it cannot.
    unsafe {
        ok(pthread_attr_init(attributes))?;
        ok(pthread_attr_setstack(attributes, stack.as_mut_ptr().cast(), size_of_val(stack)))?;
        ok(pthread_create(&mut thread, attributes, start, NonNull::from(task).as_ptr().cast()))?;
        ok(pthread_join(thread, null_mut())).unwrap_or_else(|_| abort());
        ok(pthread_attr_destroy(attributes))
    }
}

/// The thread's function.
extern "C" fn start(task: *mut c_void) -> *mut c_void {
    // SAFETY: `run_on` gives a task that nothing else uses until this thread has ended.
    let task = unsafe { &mut *task.cast::<Task>() };
    (task.run)();
    null_mut()
}

fn ok(number: c_int) -> Result<(), String> {
    match number {
        0 => Ok(()),
        _ => Err(format!("a thread on a stack of ours: error {number}")),
    }
}

#[cfg(test)]
mod tests {
    use super::taken;
    use std::hint::black_box;

    #[inline(never)]
    fn deep(levels: usize) -> usize {
        let area = black_box([levels as u8; 1_000]);
        if levels == 0 {
            0
        } else {
            deep(levels - 1) + usize::from(area[levels % 1_000])
        }
    }

    /// Ten levels more of a thousand bytes each are ten thousand bytes and some more.
    #[test]
    fn the_bytes_of_frames_are_seen() {
        let [ten, twenty] = [10, 20].map(|levels| taken(|| deep(black_box(levels))).unwrap());
        let more = twenty - ten;
        assert!((10_000..30_000).contains(&more), "{more}");
    }
}
