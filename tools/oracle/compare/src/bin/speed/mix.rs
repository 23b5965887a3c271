//! The instructions that are measured.

use answers::make::{conditioned, S, W};
use answers::words;
use original::armv7::{ConditionCode, Instruction, Opcode, Operand};

/// The longest lines: four lists of all registers, with and without codes.
fn longest() -> Vec<Instruction> {
    let lists = [Operand::RegList(0xffff); 4];
    [Opcode::MCRR(15, 15), Opcode::ADD]
        .map(|opcode| conditioned(ConditionCode::EQ, S | W, opcode, &lists))
        .into()
}

/// The mix of that name: the words of typical code, or the longest lines.
pub fn named(name: &str, file: &str) -> Result<Vec<Instruction>, String> {
    match name {
        "code" => words::from_file(file),
        "longest" => Ok(longest()),
        _ => Err(format!("no such mix: {name}")),
    }
}

pub const NAMES: [&str; 2] = ["code", "longest"];
