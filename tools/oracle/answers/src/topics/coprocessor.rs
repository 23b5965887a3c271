//! The coprocessor opcodes: each code, each condition, operands as in real code.

use crate::make::{conditioned, plain, r, reg, CONDITIONS};
use crate::opcodes;
use original::armv7::{CReg, Instruction, Opcode, Operand};

pub fn all() -> Vec<Instruction> {
    let mut all = Vec::new();
    for opcode in opcodes::with_each_code() {
        all.push(plain(opcode, &operands(opcode)));
    }
    for (i, condition) in CONDITIONS.into_iter().enumerate() {
        for (j, opcode) in opcodes::with_codes(7, 1, 2).into_iter().enumerate() {
            if i % 3 == j % 3 {
                all.push(conditioned(condition, 0, opcode, &operands(opcode)));
            }
        }
    }
    for opcode in opcodes::with_codes(15, 0, 4) {
        all.push(plain(opcode, &[]));
    }
    all
}

fn operands(opcode: Opcode) -> Vec<Operand> {
    let creg = |number| Operand::CReg(CReg::from_u8(number));
    match opcode {
        Opcode::LDC(_) | Opcode::LDC2(_) => {
            vec![
                creg(7),
                Operand::RegDerefPreindexOffset(r(15), 0xd0, true, false),
            ]
        }
        Opcode::LDCL(_) | Opcode::LDC2L(_) => {
            vec![
                creg(10),
                Operand::RegDerefPostindexOffset(r(1), 4, false, false),
            ]
        }
        Opcode::STC(_) | Opcode::STC2(_) | Opcode::STCL(_) | Opcode::STC2L(_) => {
            vec![creg(0), Operand::RegDeref(r(9)), Operand::CoprocOption(255)]
        }
        Opcode::CDP2(..) => vec![creg(0), creg(9), creg(15)],
        Opcode::MCR2(..) | Opcode::MRC2(..) => vec![reg(0), creg(1), creg(10)],
        _ => vec![reg(0), reg(14), creg(11)],
    }
}
