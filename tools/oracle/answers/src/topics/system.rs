//! CPS and SETEND: each value, and damaged shapes.

use crate::make::{plain, r, reg};
use original::armv7::{Instruction, Opcode, Operand, RegShift};

pub fn all() -> Vec<Instruction> {
    let mut all = Vec::new();
    for opcode in [Opcode::CPS(false), Opcode::CPS(true)] {
        for flags in (0..=9).chain([15, 16, 0xfff8, 0xffff]) {
            all.push(plain(opcode, &[Operand::Imm12(flags)]));
            for mode in [0, 0x13, 0xffff] {
                all.push(plain(
                    opcode,
                    &[Operand::Imm12(flags), Operand::Imm12(mode)],
                ));
            }
        }
        all.extend(damaged(opcode));
        // A second operand that stops the original elsewhere is not looked at here.
        for operand in stopping() {
            all.push(plain(opcode, &[Operand::Imm12(4), operand]));
        }
        // A second operand that is no mode is left out, and so is all that follows.
        all.push(plain(opcode, &[Operand::Imm12(4), Operand::Imm32(0x13)]));
        all.push(plain(
            opcode,
            &[Operand::Imm12(4), reg(0), Operand::Imm12(0x13)],
        ));
        all.push(plain(
            opcode,
            &[Operand::Imm12(4), Operand::Imm12(0x13), reg(0)],
        ));
    }
    for value in [0, 1, 2, 7, 8, 0xfff, 0xffff] {
        all.push(plain(Opcode::SETEND, &[Operand::Imm12(value)]));
    }
    all.extend(damaged(Opcode::SETEND));
    all.push(plain(Opcode::SETEND, &[Operand::Imm12(1), reg(0)]));
    for operand in [Operand::Imm12(0x13), Operand::Imm32(0x13), Operand::Nothing] {
        all.push(plain(Opcode::CPS_modeonly, &[operand]));
    }
    all
}

/// Shapes whose first operand is not an `Imm12`.
fn damaged(opcode: Opcode) -> Vec<Instruction> {
    vec![
        plain(opcode, &[]),
        plain(opcode, &[Operand::Nothing, Operand::Imm12(1)]),
        plain(opcode, &[Operand::Imm32(1)]),
        plain(opcode, &[Operand::Imm32(1), Operand::Imm12(1)]),
        plain(opcode, &[reg(1)]),
        plain(opcode, &[Operand::CPSR]),
    ]
}

/// Operands that have no line of their own.
fn stopping() -> Vec<Operand> {
    vec![
        #[allow(deprecated)]
        Operand::Coprocessor(1),
        Operand::RegDerefPostindexRegShift(r(1), RegShift::from_raw(2), true, true),
        Operand::BranchOffset(0x2000_0000),
        Operand::BranchThumbOffset(-0x4000_0001),
    ]
}
