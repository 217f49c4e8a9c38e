//! The stack that a call takes: it runs on a stack of our own that is filled with a pattern, and what it has written over is looked at.

use std::ffi::{c_int, c_void};
use std::ptr::{addr_of, null_mut};
use std::sync::atomic::{AtomicBool, AtomicUsize, Ordering};

const STACK: usize = 1 << 18;
const PATTERN: u8 = 0xA5;

/// Longer than the attributes of a thread are on any system that runs this.
#[repr(C, align(16))]
struct Attributes([u8; 256]);

/// A page's alignment, which a stack must have.
#[repr(C, align(4096))]
struct Stack([u8; STACK]);

type Start = extern "C" fn(*mut c_void) -> *mut c_void;

extern "C" {
    fn pthread_attr_init(attributes: *mut Attributes) -> c_int;
    fn pthread_attr_setstack(attributes: *mut Attributes, low: *mut c_void, size: usize) -> c_int;
    fn pthread_create(
        thread: *mut usize,
        attributes: *const Attributes,
        start: Start,
        argument: *mut c_void,
    ) -> c_int;
    fn pthread_join(thread: usize, answer: *mut *mut c_void) -> c_int;
}

struct Run<'a> {
    call: &'a mut dyn FnMut(),
    watch: &'a Watch,
}

/// What the two threads tell one another.
struct Watch {
    /// Where the stack stood when the call was made.
    top: AtomicUsize,
    is_done: AtomicBool,
    is_seen: AtomicBool,
}

/// Stays until the stack has been looked at, since a thread that ends uses its stack once more.
extern "C" fn start(argument: *mut c_void) -> *mut c_void {
    // The one who made the thread lends this until the thread has ended, and does not touch `call` meanwhile.
    let run = unsafe { &mut *argument.cast::<Run>() };
    let here = 0u8;
    run.watch
        .top
        .store(addr_of!(here) as usize, Ordering::Relaxed);
    (run.call)();
    run.watch.is_done.store(true, Ordering::Release);
    while !run.watch.is_seen.load(Ordering::Acquire) {
        std::hint::spin_loop();
    }
    null_mut()
}

/// How many bytes of stack a call takes, with the frame from which it is made.
pub fn depth_of(call: &mut dyn FnMut()) -> Result<usize, String> {
    let mut stack = Box::new(Stack([PATTERN; STACK]));
    let low = addr_of!(stack.0) as usize;
    let watch = Watch {
        top: AtomicUsize::new(0),
        is_done: AtomicBool::new(false),
        is_seen: AtomicBool::new(false),
    };
    let mut run = Run {
        call,
        watch: &watch,
    };
    let memory: *mut Stack = &mut *stack;
    let thread = started(memory, &mut run)?;
    while !watch.is_done.load(Ordering::Acquire) {
        std::thread::yield_now();
    }
    // The thread waits and writes nothing; it may use its stack, so it is read as memory that is not ours alone.
    let is_painted = |at: usize| unsafe { memory.cast::<u8>().add(at).read_volatile() } == PATTERN;
    let untouched = (0..STACK).take_while(|&at| is_painted(at)).count();
    watch.is_seen.store(true, Ordering::Release);
    // The thread was made above and is joined once.
    unsafe { pthread_join(thread, null_mut()) };
    Ok(watch.top.load(Ordering::Relaxed) - low - untouched)
}

fn started(stack: *mut Stack, run: &mut Run) -> Result<usize, String> {
    let mut attributes = Attributes([0; 256]);
    let mut thread = 0;
    let argument: *mut Run = run;
    // The stack and the argument outlive the thread: `depth_of` joins it before it lets go of them.
    let failed = unsafe {
        pthread_attr_init(&mut attributes) != 0
            || pthread_attr_setstack(&mut attributes, stack.cast(), STACK) != 0
            || pthread_create(&mut thread, &attributes, start, argument.cast()) != 0
    };
    if failed {
        return Err("no thread could be started to measure the stack".to_string());
    }
    Ok(thread)
}

#[cfg(test)]
mod tests {
    use super::*;
    use std::hint::black_box;

    #[inline(never)]
    fn large_frame() {
        let mut frame = [1u8; 10_000];
        black_box(&mut frame);
    }

    #[test]
    fn a_large_frame_is_found() {
        let nothing = depth_of(&mut || ()).unwrap();
        let large = depth_of(&mut large_frame).unwrap();
        assert!(nothing < 1_000);
        assert!((10_000..12_000).contains(&large));
    }
}
