//! Branches with offsets around the places where their shift overflows.

use crate::make::{conditioned, plain, reg};
use crate::operands::BRANCH_OFFSETS;
use original::armv7::{ConditionCode, Instruction, Opcode, Operand};

pub fn all() -> Vec<Instruction> {
    let mut all = Vec::new();
    for offset in BRANCH_OFFSETS {
        all.push(plain(Opcode::B, &[Operand::BranchOffset(offset)]));
        all.push(plain(Opcode::BLX, &[Operand::BranchThumbOffset(offset)]));
    }
    for offset in [-4, 4] {
        let ne = ConditionCode::NE;
        all.push(conditioned(
            ne,
            0,
            Opcode::BL,
            &[Operand::BranchOffset(offset)],
        ));
        all.push(plain(
            Opcode::CBZ,
            &[reg(7), Operand::BranchThumbOffset(offset)],
        ));
    }
    all
}
