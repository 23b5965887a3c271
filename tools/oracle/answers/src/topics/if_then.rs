//! IT: each condition with each mask, and damaged shapes.

use crate::make::{plain, reg};
use original::armv7::{Instruction, Opcode, Operand};

pub fn all() -> Vec<Instruction> {
    let mut all = Vec::new();
    for condition in 0..=16 {
        for mask in 0..=17 {
            all.push(it(condition, mask));
        }
    }
    // Only the lowest byte of the condition and four bits of the mask count.
    for condition in [17, 254, 255, 256, 257, 270, 271, 0xffff_ff01, 0xffff_ffff] {
        all.push(it(condition, 0b0110));
    }
    for mask in [0x10, 0x18, 0xffff_fff0, 0xffff_ffff] {
        all.push(it(3, mask));
    }
    all.extend(damaged());
    all
}

fn it(condition: u32, mask: u32) -> Instruction {
    plain(
        Opcode::IT,
        &[Operand::Imm32(condition), Operand::Imm32(mask)],
    )
}

fn damaged() -> Vec<Instruction> {
    let one = Operand::Imm32(1);
    let nothing = Operand::Nothing;
    vec![
        plain(Opcode::IT, &[]),
        plain(Opcode::IT, &[one]),
        plain(Opcode::IT, &[nothing, one]),
        plain(Opcode::IT, &[Operand::Imm12(1), one]),
        plain(Opcode::IT, &[one, Operand::Imm12(1)]),
        plain(Opcode::IT, &[reg(1), one]),
        plain(Opcode::IT, &[one, reg(1)]),
        plain(Opcode::IT, &[reg(1), reg(1)]),
        plain(Opcode::IT, &[one, nothing, one]),
        // What follows the two is not looked at.
        plain(Opcode::IT, &[one, one, one]),
        plain(Opcode::IT, &[one, one, nothing, reg(1)]),
    ]
}
