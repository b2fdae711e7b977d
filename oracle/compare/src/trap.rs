//! A fault of the machine inside a call names its page before the program ends.

use std::cell::Cell;
use std::ffi::{c_int, c_void};
use std::ptr;

const SIGBUS: c_int = 7;
const SIGSEGV: c_int = 11;
/// The handler runs on the thread's other stack, so that a stack that has run out is named too.
const SA_ONSTACK: c_int = 0x0800_0000;

/// `struct sigaction` of glibc on x86-64.
#[repr(C)]
struct Action {
    handler: extern "C" fn(c_int),
    mask: [u64; 16],
    flags: c_int,
    restorer: usize,
}

extern "C" {
    fn sigaction(signal: c_int, action: *const Action, before: *mut Action) -> c_int;
    fn write(file: c_int, bytes: *const c_void, length: usize) -> isize;
    fn abort() -> !;
}

thread_local! {
    static PAGE: Cell<(*const u8, usize)> = const { Cell::new((ptr::null(), 0)) };
}

/// Runs calls on a page; if one of them faults, the page is printed and the program ends.
pub fn naming<T>(page: &[u8], calls: impl FnOnce() -> T) -> T {
    PAGE.set((page.as_ptr(), page.len()));
    let result = calls();
    PAGE.set((ptr::null(), 0));
    result
}

pub fn set() {
    let action = Action {
        handler,
        mask: [0; 16],
        flags: SA_ONSTACK,
        restorer: 0,
    };
    for signal in [SIGSEGV, SIGBUS] {
        // SAFETY: the handler below only reads the page, writes and ends.
        let result = unsafe { sigaction(signal, &action, ptr::null_mut()) };
        assert_eq!(result, 0, "the handler is set");
    }
}

extern "C" fn handler(_: c_int) {
    let (start, length) = PAGE.get();
    print(b"a call faults\npage: ");
    for index in 0..length {
        // SAFETY: `naming` holds the page while the calls run.
        let byte = usize::from(unsafe { *start.add(index) });
        const DIGITS: &[u8; 16] = b"0123456789abcdef";
        print(&[DIGITS[byte / 16], DIGITS[byte % 16]]);
    }
    print(b"\n");
    // SAFETY: nothing is left to do. Whoever watches for this signal, as libFuzzer does, learns of it.
    unsafe { abort() }
}

fn print(words: &[u8]) {
    // SAFETY: so many bytes lie there. If they cannot be written there is no one to tell.
    unsafe { write(2, words.as_ptr().cast(), words.len()) };
}
