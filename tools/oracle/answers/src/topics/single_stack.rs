//! LDR and STR of one register: the forms that are pop and push, and those
//! that are nearly so.

use crate::make::{conditioned, plain, r, reg, CONDITIONS};
use original::armv7::{Instruction, Opcode, Operand};

/// A memory operand with a base, an offset, add and write-back.
type Memory = fn(u8, u16, bool, bool) -> Operand;

const POST: Memory =
    |n, offset, add, wback| Operand::RegDerefPostindexOffset(r(n), offset, add, wback);
const PRE: Memory =
    |n, offset, add, wback| Operand::RegDerefPreindexOffset(r(n), offset, add, wback);

pub fn all() -> Vec<Instruction> {
    let mut all = Vec::new();
    let popped = POST(13, 4, true, false);
    let pushed = PRE(13, 4, false, true);
    for n in 0..16 {
        all.push(plain(Opcode::LDR, &[reg(n), popped]));
        all.push(plain(Opcode::STR, &[reg(n), pushed]));
    }
    for condition in CONDITIONS {
        all.push(conditioned(condition, 0, Opcode::LDR, &[reg(0), popped]));
        all.push(conditioned(condition, 0, Opcode::STR, &[reg(0), pushed]));
    }
    all.extend(near_misses(Opcode::LDR, POST, true, false));
    all.extend(near_misses(Opcode::STR, PRE, false, true));
    for opcode in [Opcode::LDRB, Opcode::LDRT, Opcode::STRB, Opcode::STRT] {
        all.push(plain(opcode, &[reg(1), popped]));
        all.push(plain(opcode, &[reg(1), pushed]));
    }
    all
}

/// `[reg, memory(13, 4, add, wback)]` is the form of a pop or a push: changes
/// it in one respect at a time.
fn near_misses(opcode: Opcode, memory: Memory, add: bool, wback: bool) -> Vec<Instruction> {
    let exact = memory(13, 4, add, wback);
    let mut all = Vec::new();
    for base in [0, 12, 14, 15] {
        all.push(plain(opcode, &[reg(1), memory(base, 4, add, wback)]));
    }
    for offset in [0, 3, 5, 8, 0x104] {
        all.push(plain(opcode, &[reg(1), memory(13, offset, add, wback)]));
    }
    for other in [POST, PRE] {
        for add in [false, true] {
            for wback in [false, true] {
                all.push(plain(opcode, &[reg(1), other(13, 4, add, wback)]));
            }
        }
    }
    all.push(plain(opcode, &[Operand::RegWBack(r(1), false), exact]));
    all.push(plain(opcode, &[Operand::Nothing, exact]));
    all.push(plain(opcode, &[exact]));
    all.push(plain(opcode, &[exact, reg(1)]));
    all.push(plain(opcode, &[reg(1), exact, reg(2)]));
    all.push(plain(opcode, &[reg(1), exact, Operand::Nothing, reg(2)]));
    all
}
