//! Wrong calls for signatures: a fault each in the word, in what is written, or in which names are found.

use super::super::{buffer, signature, slice, whole};
use compare::library::{Library, Writes};
use oracle::answer::Outcome;
use oracle::functions;

fn refused(number: u8, record: usize) -> u64 {
    Outcome::Refused { number, record }.word(0)
}

/// The answer to another name.
fn of_name(name: &[u8], out: *mut u8, room: usize) -> u64 {
    signature(name.as_ptr(), name.len(), out, room)
}

extern "C" fn without_kind(name: *const u8, length: usize, out: *mut u8, room: usize) -> u64 {
    let word = signature(name, length, out, room);
    word & !3
}

extern "C" fn too_short_first(name: *const u8, length: usize, out: *mut u8, room: usize) -> u64 {
    match room {
        0 => refused(5, 0),
        _ => signature(name, length, out, room),
    }
}

/// Wants room for the longest signature always.
extern "C" fn wants_eight(name: *const u8, length: usize, out: *mut u8, room: usize) -> u64 {
    match functions::answer(slice(name, length), 8).0 >> 63 == 0 && room < 8 {
        true => refused(5, 0),
        false => signature(name, length, out, room),
    }
}

/// Wants a byte more than it writes.
extern "C" fn stingy(name: *const u8, length: usize, out: *mut u8, room: usize) -> u64 {
    signature(name, length, out, room.saturating_sub(1))
}

/// Writes what fits, then says 5.
extern "C" fn partial(name: *const u8, length: usize, out: *mut u8, room: usize) -> u64 {
    let (_, written) = functions::answer(slice(name, length), 8);
    let fitting = written.len().min(room);
    buffer(out, room)[..fitting].copy_from_slice(&written[..fitting]);
    signature(name, length, out, room)
}

/// Clears the buffer behind the signature.
extern "C" fn clears(name: *const u8, length: usize, out: *mut u8, room: usize) -> u64 {
    let word = signature(name, length, out, room);
    if word >> 63 == 0 {
        buffer(out, room)[(word >> 2) as usize..].fill(0);
    }
    word
}

/// Marks the buffer where the name is unknown.
extern "C" fn marks(name: *const u8, length: usize, out: *mut u8, room: usize) -> u64 {
    let word = signature(name, length, out, room);
    if word >> 63 == 1 {
        buffer(out, room).fill(0);
    }
    word
}

/// Writes a count of arguments too.
extern "C" fn with_count(name: *const u8, length: usize, out: *mut u8, room: usize) -> u64 {
    let word = signature(name, length, out, room);
    if word >> 63 == 0 && (word >> 2) < room as u64 {
        buffer(out, room)[(word >> 2) as usize] = 1;
        return word + 4;
    }
    word
}

/// Keeps a length in so many bits.
extern "C" fn in_bits<const BITS: u32>(
    name: *const u8,
    length: usize,
    out: *mut u8,
    room: usize,
) -> u64 {
    signature(name, length & ((1 << BITS) - 1), out, room)
}

extern "C" fn beginning(name: *const u8, length: usize, out: *mut u8, room: usize) -> u64 {
    let asked = slice(name, length);
    let found =
        functions::names().find(|known| !asked.is_empty() && known.as_bytes().starts_with(asked));
    found.map_or(refused(37, 0), |known| of_name(known.as_bytes(), out, room))
}

extern "C" fn in_capitals(name: *const u8, length: usize, out: *mut u8, room: usize) -> u64 {
    of_name(&slice(name, length).to_ascii_lowercase(), out, room)
}

/// Drops bytes that are no text.
extern "C" fn lossy(name: *const u8, length: usize, out: *mut u8, room: usize) -> u64 {
    let letters = slice(name, length).iter().filter(|byte| byte.is_ascii());
    of_name(&letters.copied().collect::<Vec<u8>>(), out, room)
}

/// Refuses names that a page could not carry in another way.
extern "C" fn says_4(name: *const u8, length: usize, out: *mut u8, room: usize) -> u64 {
    match length {
        0 => refused(4, 0),
        _ => signature(name, length, out, room),
    }
}

/// One name has the signature of another.
extern "C" fn confuses(name: *const u8, length: usize, out: *mut u8, room: usize) -> u64 {
    match slice(name, length) {
        b"max_of" => of_name(b"clamp_max", out, room),
        _ => signature(name, length, out, room),
    }
}

/// Reads the byte behind the name.
pub extern "C" fn reads_behind(name: *const u8, length: usize, out: *mut u8, room: usize) -> u64 {
    // SAFETY: none, that is the fault.
    let _ = unsafe { name.add(length).read_volatile() };
    signature(name, length, out, room)
}

/// Writes to the name, though the value stays.
pub extern "C" fn writes_name(name: *const u8, length: usize, out: *mut u8, room: usize) -> u64 {
    if length > 0 {
        // SAFETY: none, that is the fault: the name is lent for reading.
        unsafe { name.cast_mut().write_volatile(*name) };
    }
    signature(name, length, out, room)
}

/// Writes to the byte behind the buffer, though the value stays.
pub extern "C" fn writes_behind(name: *const u8, length: usize, out: *mut u8, room: usize) -> u64 {
    // SAFETY: none, that is the fault.
    unsafe {
        let behind = out.add(room);
        behind.write_volatile(behind.read_volatile());
    }
    signature(name, length, out, room)
}

/// Words for the fault, the library.
#[rustfmt::skip]
pub fn faulty_signatures() -> Vec<(&'static str, Library)> {
    let calls: [(&str, Writes); 15] = [
        ("no kind in the word", without_kind), ("5 before 37", too_short_first), ("8 bytes wanted always", wants_eight),
        ("5 with just enough room", stingy), ("a part, then 5", partial), ("the bytes behind cleared", clears),
        ("a refusal that writes", marks), ("a count behind the signature", with_count),
        ("a length in one byte", in_bits::<8>), ("a length in two bytes", in_bits::<16>),
        ("found by a beginning", beginning), ("capitals found", in_capitals), ("bytes above 127 dropped", lossy),
        ("4 for the empty name", says_4), ("one name taken for another", confuses),
    ];
    let library = |signature| Library { signature, ..whole() };
    calls.map(|(words, call)| (words, library(call))).to_vec()
}
