//! The functions of an archive, as objdump lists their machine code.

use std::collections::BTreeMap;
use std::process::Command;

/// An instruction, and where it lies in its function.
pub struct Instruction {
    pub address: usize,
    pub name: String,
    pub operands: String,
    /// The function that is called or jumped to.
    pub callee: Option<String>,
}

pub type Functions = BTreeMap<String, Vec<Instruction>>;

/// What objdump writes of an archive.
pub fn list(archive: &str) -> String {
    let flags = ["--disassemble", "--reloc", "--no-show-raw-insn"];
    let mut objdump = Command::new("objdump");
    let output = objdump.args(flags).arg(archive).output();
    let output = output.expect("objdump is there, with the linker");
    String::from_utf8(output.stdout).expect("a listing is text")
}

/// `0000000000000000 <page::text::read_text>:`
fn heading(line: &str) -> Option<&str> {
    Some(line.strip_suffix(">:")?.split_once(" <")?.1)
}

/// `5a: call 0 <page::number::read_up_to>`. A call within the function itself has its name here, all others below.
fn instruction(line: &str) -> Option<Instruction> {
    let (address, words) = line.split_once(":\t")?;
    let (name, operands) = words.split_once(' ').unwrap_or((words, ""));
    let operands = operands.trim();
    let called = operands.split_once('<').filter(|_| name == "call");
    Some(Instruction {
        address: usize::from_str_radix(address.trim(), 16).ok()?,
        name: name.into(),
        operands: operands.into(),
        callee: called.map(|(_, called)| called.trim_end_matches('>').into()),
    })
}

/// `5b: R_X86_64_PLT32 .text.page::text::read_text-0x4`
fn relocation(line: &str) -> Option<&str> {
    let symbol = line.split_once(": R_X86_64_")?.1.split_once('\t')?.1;
    let end = symbol.find(['-', '+']).unwrap_or(symbol.len());
    Some(symbol[..end].trim_start_matches(".text."))
}

/// The functions of a listing. A relocation stands after the instruction whose operand it is.
pub fn functions(listing: &str) -> Functions {
    let mut functions = Functions::new();
    let mut function = "";
    for line in listing.lines() {
        let code = functions.entry(function.to_string()).or_default();
        if let Some(name) = heading(line) {
            function = name;
        } else if let Some(symbol) = relocation(line) {
            let instruction: &mut Instruction = code.last_mut().expect("an instruction");
            if instruction.name == "call" || instruction.name.starts_with('j') {
                instruction.callee = Some(symbol.into());
            }
        } else {
            code.extend(instruction(line));
        }
    }
    functions.remove("");
    functions
}
