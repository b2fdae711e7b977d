//! Memory between two guard pages: a read or a write past either end is a fault of the machine.

use std::ffi::{c_int, c_void};
use std::ptr;

const PROT_NONE: c_int = 0;
const PROT_READ: c_int = 1;
const PROT_WRITE: c_int = 2;
const MAP_PRIVATE: c_int = 0x02;
const MAP_ANONYMOUS: c_int = 0x20;
const GUARD: usize = 4096;

extern "C" {
    fn mmap(
        address: *mut c_void,
        length: usize,
        protection: c_int,
        flags: c_int,
        file: c_int,
        offset: i64,
    ) -> *mut c_void;
    fn mprotect(address: *mut c_void, length: usize, protection: c_int) -> c_int;
    fn munmap(address: *mut c_void, length: usize) -> c_int;
}

/// The guard that bytes are placed against.
#[derive(Debug, Clone, Copy, PartialEq, Eq)]
pub enum End {
    Front,
    Rear,
}

impl End {
    pub const BOTH: [End; 2] = [End::Front, End::Rear];
}

pub struct Guarded {
    start: *mut u8,
    size: usize,
}

impl Guarded {
    /// `size` bytes, a multiple of the machine's page, with a guard before and after them.
    pub fn new(size: usize) -> Self {
        assert_eq!(size % GUARD, 0, "the guards lie on whole pages");
        // SAFETY: a fresh mapping; its middle part lies inside it.
        unsafe {
            let whole = mmap(
                ptr::null_mut(),
                size + 2 * GUARD,
                PROT_NONE,
                MAP_PRIVATE | MAP_ANONYMOUS,
                -1,
                0,
            );
            assert_ne!(whole as isize, -1, "memory is mapped");
            let start = whole.cast::<u8>().add(GUARD);
            let guarded = Self { start, size };
            guarded.protect(PROT_READ | PROT_WRITE);
            guarded
        }
    }

    fn protect(&self, protection: c_int) {
        // SAFETY: the stretch between the guards is ours.
        let result = unsafe { mprotect(self.start.cast(), self.size, protection) };
        assert_eq!(result, 0, "the protection is set");
    }

    /// Where `length` bytes lie that touch the guard.
    pub fn place(&self, end: End, length: usize) -> *mut u8 {
        assert!(length <= self.size, "{length} bytes fit between the guards");
        match end {
            End::Front => self.start,
            // SAFETY: at most `size` bytes before the rear guard.
            End::Rear => unsafe { self.start.add(self.size - length) },
        }
    }

    /// Puts the bytes against the guard.
    pub fn put(&mut self, end: End, bytes: &[u8]) -> *mut u8 {
        let place = self.place(end, bytes.len());
        // SAFETY: `place` has room for them, and no one else has this memory.
        unsafe { ptr::copy_nonoverlapping(bytes.as_ptr(), place, bytes.len()) };
        place
    }

    /// The bytes that touch the guard.
    pub fn bytes(&self, end: End, length: usize) -> &[u8] {
        // SAFETY: the stretch lies between the guards, and mapped memory holds bytes.
        unsafe { std::slice::from_raw_parts(self.place(end, length), length) }
    }

    /// Lets the memory be read only, or written too.
    pub fn set_read_only(&mut self, is_read_only: bool) {
        self.protect(if is_read_only {
            PROT_READ
        } else {
            PROT_READ | PROT_WRITE
        });
    }
}

impl Drop for Guarded {
    fn drop(&mut self) {
        // SAFETY: the whole mapping, made by `new`, which nothing refers to any more.
        unsafe { munmap(self.start.sub(GUARD).cast(), self.size + 2 * GUARD) };
    }
}
