//! `STACK_BYTES` holds what every call uses: the frames of the archive's functions, added up along the deepest chain of
//! calls.
//!
//! Frames and calls are read from the machine code (objdump). How deep functions nest that call themselves or each
//! other is not seen there, but proved, by what falls from call to call:
//! - `OVER_RECORDS`: pairs of functions that go from a record to earlier ones. A chain of calls has each function of a
//!   pair once for each record at most, all pairs together; only where it passes on to another pair a record counts for
//!   both.
//! - `OTHERS`: so many calls at most, by the groups of a number, its digits, its places (one call more, for the whole
//!   part), and the positions in a pattern (one call more, at its end). The three functions over a pattern call each
//!   other: from call to call the position grows, or it stays and a choice goes to a sequence, or that to an item. So a
//!   chain of calls has each of them once for each position at most, however many of them the compiler leaves.
//!
//! Assumed is what memcpy and memset use.

mod frame;
mod listing;

use frame::{frame, Frame};
use listing::{functions, list};
use sandzguli::{COPY_BYTES, RECORDS, STACK_BYTES};
use std::collections::{BTreeMap, BTreeSet};

const OVER_RECORDS: [&str; 5] = [
    "canonical::text_len",
    "canonical::write_text",
    "measure::measure",
    "split::length::split_len",
    "split::write::write_split",
];

const OTHERS: [(&str, usize); 6] = [
    ("page::number::read_up_to", 8),
    ("leaves::decimal::put_decimal", 20),
    ("leaves::decimal::put_expansion", 16),
    ("patterns::choice", 256),
    ("patterns::sequence", 256),
    ("patterns::item", 256),
];

/// The calls that read patterns.
const READING_PATTERNS: [&str; 11] = [
    "sandzguli_canonical",
    "sandzguli_check",
    "sandzguli_check_newer",
    "sandzguli_check_older",
    "sandzguli_check_operators",
    "sandzguli_check_table",
    "sandzguli_copy",
    "sandzguli_generations",
    "sandzguli_joint_label",
    "sandzguli_pattern",
    "sandzguli_split",
];

const LIBC: [&str; 2] = ["memcpy", "memset"];

/// With the dynamic linker's work at the first call.
const LIBC_BYTES: usize = 8192;

/// What the last function of a chain may use below the end of the stack.
const RED_ZONE: usize = 128;

/// A function and all that it calls and that call it.
struct Circle<'a> {
    functions: BTreeSet<&'a str>,
    /// How many times they nest; once here where that goes over records.
    times: usize,
    is_over_records: bool,
}

struct Code {
    frames: BTreeMap<String, Frame>,
}

impl Code {
    fn new(listing: &str) -> Self {
        let frames = functions(listing);
        let frames = frames.into_iter().map(|(name, code)| (name, frame(&code)));
        Self {
            frames: frames.collect(),
        }
    }

    /// The functions that a function calls, and those that they call.
    fn reached(&self, function: &str) -> BTreeSet<&str> {
        let mut reached = BTreeSet::new();
        let mut left = vec![function];
        while let Some(function) = left.pop() {
            let frame = self.frames.get(function);
            for callee in frame.iter().flat_map(|frame| &frame.callees) {
                if reached.insert(callee.as_str()) {
                    left.push(callee);
                }
            }
        }
        reached
    }

    fn circle<'a>(&'a self, function: &'a str) -> Circle<'a> {
        let reached = self.reached(function);
        let nests = reached.contains(function);
        let calls_it = |callee: &&str| self.reached(callee).contains(function);
        let mut functions: BTreeSet<_> = reached.into_iter().filter(calls_it).collect();
        functions.insert(function);
        let is_over_records = OVER_RECORDS.iter().any(|name| functions.contains(name));
        let other = OTHERS.iter().find(|(name, _)| functions.contains(name));
        let times = match other {
            Some((_, times)) => *times,
            None if is_over_records || !nests => 1,
            None => panic!("how deep does {function} nest?"),
        };
        Circle {
            functions,
            times,
            is_over_records,
        }
    }

    fn frame_of(&self, function: &str) -> &Frame {
        let frame = self.frames.get(function);
        frame.unwrap_or_else(|| panic!("how much does {function} use?"))
    }

    /// Bytes of the deepest chain of calls from a function on, after pairs over records of which the widest has so
    /// many. One round of each pair is counted where the chain comes to it, all others as rounds of the widest.
    fn deepest(&self, function: &str, widest: usize) -> usize {
        let rounds = |widest| (RECORDS - 1) * widest;
        if LIBC.contains(&function) {
            return LIBC_BYTES + rounds(widest);
        }
        let circle = self.circle(function);
        let frames = circle.functions.iter().map(|name| self.frame_of(name));
        let own = circle.times * frames.clone().map(|frame| frame.bytes).sum::<usize>();
        let widest = widest.max(if circle.is_over_records { own } else { 0 });
        let callees: BTreeSet<_> = frames.flat_map(|frame| &frame.callees).collect();
        let is_exit = |name: &&String| !circle.functions.contains(name.as_str());
        let exits = callees.into_iter().filter(is_exit);
        let below = exits.map(|name| self.deepest(name, widest)).max();
        own + below.unwrap_or(rounds(widest))
    }
}

#[test]
fn no_call_uses_more_stack_than_is_said() {
    let code = Code::new(&list(concat!(env!("OUT_DIR"), "/libsandzguli.a")));
    let calls = code
        .frames
        .keys()
        .filter(|name| name.starts_with("sandzguli_"));
    let sums = calls.map(|call| (call.as_str(), code.deepest(call, 0) + RED_ZONE));
    let sums: BTreeMap<_, _> = sums.collect();
    for (call, bytes) in &sums {
        println!("{call:<24}{bytes:>8} bytes");
        assert!(*bytes <= STACK_BYTES, "{call} may use {bytes} bytes");
    }
    // `same_query` calls it with two copies on the stack.
    assert!(sums["sandzguli_copy"] + 2 * COPY_BYTES <= STACK_BYTES);
    // The texts go over all records, so that their sums are large; a listing that is not read has none.
    assert!(sums["sandzguli_canonical"] > 100 * RECORDS);
    assert!(sums["sandzguli_split"] > sums["sandzguli_canonical"]);
    // Over all positions of a pattern, with 16 bytes at each at the very least.
    assert!(sums["sandzguli_pattern"] > 16 * 256);
    let is_over_pattern = |name: &&str| name.starts_with("patterns::");
    let reads = |call: &&str| code.reached(call).iter().any(is_over_pattern);
    let reading: Vec<_> = sums.into_keys().filter(reads).collect();
    assert_eq!(reading, READING_PATTERNS);
}

/// A function that calls itself over records, and another such one after it; two that call each other over a pattern.
const MADE: &str = "
0000000000000000 <sandzguli_pattern>:
   0:	jmp    5 <sandzguli_pattern+0x5>
			1: R_X86_64_PLT32	.text.patterns::choice-0x4

0000000000000000 <patterns::choice>:
   0:	sub    $0x18,%rsp
   4:	call   9 <patterns::choice+0x9>
			5: R_X86_64_PLT32	.text.patterns::item-0x4
   9:	add    $0x18,%rsp
   d:	ret

0000000000000000 <patterns::item>:
   0:	push   %rbx
   1:	call   6 <patterns::item+0x6>
			2: R_X86_64_PLT32	.text.patterns::choice-0x4
   6:	pop    %rbx
   7:	ret

0000000000000000 <sandzguli_made>:
   0:	sub    $0x18,%rsp
   4:	call   9 <sandzguli_made+0x9>
			5: R_X86_64_PLT32	.text.measure::measure-0x4
   9:	add    $0x18,%rsp
   d:	ret

0000000000000000 <measure::measure>:
   0:	push   %rbx
   1:	test   %edi,%edi
   3:	je     c <measure::measure+0xc>
   5:	call   0 <measure::measure>
   a:	pop    %rbx
   b:	ret
   c:	pop    %rbx
   d:	jmp    12 <measure::measure+0x12>
			e: R_X86_64_PLT32	.text.canonical::text_len-0x4

0000000000000000 <canonical::text_len>:
   0:	sub    $0x28,%rsp
   4:	call   0 <canonical::text_len>
   9:	add    $0x28,%rsp
   d:	ret
";

#[test]
fn a_made_listing_is_added_up() {
    let code = Code::new(MADE);
    let bytes = |function: &str| code.frames[function].bytes;
    assert_eq!(
        (
            bytes("sandzguli_made"),
            bytes("measure::measure"),
            bytes("canonical::text_len")
        ),
        (32, 16, 48)
    );
    assert_eq!(code.deepest("sandzguli_made", 0), 32 + 16 + 48 + 255 * 48);
    let turn = bytes("patterns::choice") + bytes("patterns::item");
    assert_eq!(turn, 32 + 16);
    assert_eq!(code.deepest("sandzguli_pattern", 0), 8 + 256 * turn);
}
