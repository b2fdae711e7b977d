//! The frame of a function: how far below its caller's end of the stack its own gets.

use super::listing::Instruction;
use std::collections::BTreeSet;

/// What a call leaves on the stack.
const RETURN_ADDRESS: isize = 8;

/// Instructions of no effect, between functions and loops.
const PADDING: [&str; 6] = ["nop", "nopw", "nopl", "xchg", "cs", "data16"];

pub struct Frame {
    pub bytes: usize,
    pub callees: BTreeSet<String>,
}

/// By how much an instruction moves the end of the stack down.
fn growth(instruction: &Instruction) -> isize {
    let operands = &instruction.operands;
    let bytes = || {
        let digits = operands
            .strip_prefix("$0x")
            .and_then(|rest| rest.strip_suffix(",%rsp"));
        let bytes = digits.and_then(|digits| u64::from_str_radix(digits, 16).ok());
        bytes.expect("a constant") as isize
    };
    match instruction.name.as_str() {
        "push" => 8,
        "pop" => -8,
        "sub" if operands.ends_with(",%rsp") => bytes(),
        "add" if operands.ends_with(",%rsp") => -bytes(),
        "enter" | "leave" => panic!("{} is not foreseen", instruction.name),
        name => {
            assert!(
                !operands.ends_with(",%rsp"),
                "{name} {operands} is not foreseen"
            );
            0
        }
    }
}

fn ends(instruction: &Instruction) -> bool {
    matches!(instruction.name.as_str(), "ret" | "ud2" | "jmp")
}

fn is_by_table(instruction: &Instruction) -> bool {
    instruction.name == "jmp" && instruction.operands.starts_with('*')
}

/// Where a jump within the function leads.
fn target(code: &[Instruction], instruction: &Instruction) -> Option<usize> {
    if !instruction.name.starts_with('j')
        || instruction.callee.is_some()
        || is_by_table(instruction)
    {
        return None;
    }
    let address = instruction.operands.split(' ').next()?;
    let address = usize::from_str_radix(address, 16).expect("an address");
    code.iter().position(|each| each.address == address)
}

/// Gives a depth to an instruction and to all that are reached from it.
fn spread(code: &[Instruction], depths: &mut [Option<isize>], start: usize, depth: isize) {
    let mut reached = vec![(start, depth)];
    while let Some((index, depth)) = reached.pop() {
        let instruction = &code[index];
        if let Some(known) = depths[index] {
            assert_eq!(known, depth, "at {:x}", instruction.address);
            continue;
        }
        depths[index] = Some(depth);
        let behind = depth + growth(instruction);
        let next = (!ends(instruction)).then_some(index + 1);
        let next = next.filter(|next| *next < code.len());
        reached.extend(target(code, instruction).map(|index| (index, behind)));
        reached.extend(next.map(|index| (index, behind)));
    }
}

/// The depth at each instruction. What no jump names is reached by the function's jump by a table.
fn depths(code: &[Instruction]) -> Vec<Option<isize>> {
    let mut depths = vec![None; code.len()];
    spread(code, &mut depths, 0, RETURN_ADDRESS);
    let by_table = code
        .iter()
        .position(is_by_table)
        .and_then(|index| depths[index]);
    let is_code = |index: &usize| !PADDING.contains(&code[*index].name.as_str());
    for index in (0..code.len()).filter(is_code) {
        if depths[index].is_none() {
            spread(code, &mut depths, index, by_table.expect("a table"));
        }
    }
    depths
}

/// Every function that is called has a name: none is called by its address.
fn callees(code: &[Instruction]) -> BTreeSet<String> {
    let is_known = |each: &Instruction| each.name != "call" || each.callee.is_some();
    assert!(code.iter().all(is_known), "a call without a name");
    code.iter().filter_map(|each| each.callee.clone()).collect()
}

pub fn frame(code: &[Instruction]) -> Frame {
    let depths = depths(code);
    let below = |(instruction, depth): (&Instruction, &Option<isize>)| {
        Some(depth.as_ref()? + growth(instruction))
    };
    let deepest = code.iter().zip(&depths).filter_map(below).max();
    Frame {
        bytes: deepest.unwrap_or(RETURN_ADDRESS) as usize,
        callees: callees(code),
    }
}
