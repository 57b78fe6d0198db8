//! The stack that a call needs: it is made once on a thread whose stack was painted before, and the lowest byte that changed is looked
//! for. What an empty thread needs is taken off.

use std::ffi::{c_int, c_void};

unsafe extern "C" {
    fn pthread_attr_init(attr: *mut Attributes) -> c_int;
    fn pthread_attr_setstack(attr: *mut Attributes, stack: *mut c_void, size: usize) -> c_int;
    fn pthread_create(
        thread: *mut usize,
        attr: *const Attributes,
        run: extern "C" fn(*mut c_void) -> *mut c_void,
        with: *mut c_void,
    ) -> c_int;
    fn pthread_join(thread: usize, answer: *mut *mut c_void) -> c_int;
}

/// Room for a `pthread_attr_t`, which glibc gives at most 64 bytes.
#[repr(C, align(16))]
struct Attributes([u8; 128]);

const SIZE: usize = 1 << 20;
const PAINT: u8 = 0xA5;

#[repr(C, align(4096))]
struct Painted([u8; SIZE]);

/// What the thread runs: a call, and its answer.
struct Work<'a> {
    call: &'a mut dyn FnMut() -> u8,
    answer: u8,
}

extern "C" fn run(work: *mut c_void) -> *mut c_void {
    // SAFETY: `used` lends it until the thread has ended.
    let work = unsafe { &mut *work.cast::<Work>() };
    work.answer = (work.call)();
    std::ptr::null_mut()
}

/// How many bytes of a painted stack were written, and what the call answered.
fn used(call: &mut dyn FnMut() -> u8) -> (usize, u8) {
    let mut stack: Box<[Painted]> = Vec::from_iter([Painted([PAINT; SIZE])]).into_boxed_slice();
    let mut work = Work { call, answer: 0 };
    let (mut attr, mut thread) = (Attributes([0; 128]), 0);
    // SAFETY: the stack and the work live until the thread has ended.
    let ended = unsafe {
        pthread_attr_init(&mut attr)
            | pthread_attr_setstack(&mut attr, stack.as_mut_ptr().cast(), SIZE)
            | pthread_create(&mut thread, &attr, run, (&raw mut work).cast())
            | pthread_join(thread, std::ptr::null_mut())
    };
    assert_eq!(ended, 0, "a thread on a painted stack");
    let untouched = stack[0].0.iter().position(|b| std::hint::black_box(*b) != PAINT).unwrap_or(SIZE);
    (SIZE - untouched, work.answer)
}

/// Prints each row; how many are over their bound.
pub struct Rows {
    empty: usize,
    over: usize,
}

impl Rows {
    pub fn new() -> Rows {
        Rows { empty: used(&mut || 0).0, over: 0 }
    }

    /// Whether all are within their bounds.
    pub fn within(&self) -> bool {
        self.over == 0
    }

    pub fn row(&mut self, name: &str, most: usize, call: &mut dyn FnMut() -> u8) {
        let (bytes, refusal) = used(call);
        assert_eq!(refusal, 0, "{name} was refused");
        let bytes = bytes - self.empty;
        self.over += usize::from(bytes > most);
        let verdict = if bytes > most { ": TOO MUCH" } else { "" };
        println!("stack of {name:44} {bytes:6} bytes, at most {most:6}{verdict}");
    }
}
