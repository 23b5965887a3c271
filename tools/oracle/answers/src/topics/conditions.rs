//! Each condition with all flags, and some of them on every path to a line.

use crate::make::{conditioned, r, reg, ALL_FLAGS, CONDITIONS, S, W};
use original::armv7::{ConditionCode, Instruction, Opcode, Operand};

pub fn all() -> Vec<Instruction> {
    let mut all = Vec::new();
    for condition in CONDITIONS {
        for flags in ALL_FLAGS {
            all.push(conditioned(
                condition,
                flags,
                Opcode::ADD,
                &[reg(0), reg(1)],
            ));
        }
    }
    for (opcode, operands) in paths() {
        for condition in [ConditionCode::AL, ConditionCode::HI] {
            for flags in [0, S, W, S | W, 15] {
                all.push(conditioned(condition, flags, opcode, &operands));
            }
        }
    }
    all
}

/// One instruction for each path through the original.
fn paths() -> Vec<(Opcode, Vec<Operand>)> {
    let block = vec![Operand::RegWBack(r(13), true), Operand::RegList(0x8010)];
    vec![
        (
            Opcode::LDR,
            vec![
                reg(4),
                Operand::RegDerefPostindexOffset(r(13), 4, true, false),
            ],
        ),
        (
            Opcode::STR,
            vec![
                reg(4),
                Operand::RegDerefPreindexOffset(r(13), 4, false, true),
            ],
        ),
        (Opcode::LDM(true, false, false, false), block.clone()),
        (Opcode::STM(false, true, false, false), block.clone()),
        (Opcode::LDM(false, true, false, false), block.clone()),
        (Opcode::STM(true, true, false, true), block),
        (Opcode::LDC(5), vec![reg(1)]),
        (Opcode::MCRR(5, 6), vec![reg(1)]),
        (Opcode::MCRR2(5, 6), vec![reg(1)]),
        (Opcode::MRC2(5, 6, 7), vec![reg(1)]),
        (Opcode::IT, vec![Operand::Imm32(2), Operand::Imm32(0b0110)]),
        (Opcode::CPS(true), vec![Operand::Imm12(2)]),
        (Opcode::SETEND, vec![Operand::Imm12(0)]),
        (Opcode::NOP, vec![]),
    ]
}
