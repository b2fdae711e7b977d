//! How long and how deep things get: the sizes of the C header.

/// The longest page that is read, in bytes; a longer one is refused.
pub const PAGE_BYTES: usize = 8192;

/// The most records of a page.
pub const RECORDS: usize = 256;

/// The longest copy of an accepted page, in bytes (proved). A copy above [`PAGE_BYTES`] is no page.
pub const COPY_BYTES: usize = 8827;

/// The longest canonical text of an accepted page, in bytes (proved).
pub const CANONICAL_BYTES: usize = 65536;

/// The longest name of a kind or a refusal, in bytes (proved).
pub const NAME_BYTES: usize = 128;

/// The longest signature of the function table, in bytes (proved).
pub const SIGNATURE_BYTES: usize = 8;

/// No call of the library uses more stack, in bytes: the frames of its functions, added up along the deepest chain of
/// calls, are less.
///
/// A thread that `std::thread::spawn` starts has 2 MiB, where nothing else was asked for. One with less needs so much
/// beside what it uses itself:
///
/// ```
/// use std::thread::Builder;
///
/// let thread = Builder::new().stack_size(sandzguli::STACK_BYTES + 64 * 1024);
/// let text = thread.spawn(|| sandzguli::split(b"\x02\x02up\x00")).unwrap();
/// assert_eq!(text.join().unwrap().unwrap(), "up");
/// ```
pub const STACK_BYTES: usize = 262_144;
