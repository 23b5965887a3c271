//! LDM and STM: all flags, the forms that are pop and push, and damaged shapes.

use crate::make::{plain, r, reg};
use original::armv7::{Instruction, Opcode, Operand};

pub fn all() -> Vec<Instruction> {
    let mut all = Vec::new();
    for bits in 0..16 {
        for opcode in with_flags(bits) {
            for base in [0, 13] {
                for wback in [false, true] {
                    all.push(block(opcode, base, wback, 0x8010));
                }
            }
        }
    }
    for opcode in pop_and_push() {
        for list in [0, 1, 0x2000, 0x8000, 0xffff] {
            all.push(block(opcode, 13, true, list));
            all.push(block(opcode, 13, false, list));
        }
        for base in 0..16 {
            all.push(block(opcode, base, true, 0x4002));
        }
        all.extend(damaged(opcode));
    }
    all.extend(with_flags(0b1010).into_iter().flat_map(damaged));
    all
}

/// LDM and STM with add, pre, write-back and user mode as in `bits`.
fn with_flags(bits: u8) -> [Opcode; 2] {
    let on = |bit: u8| bits >> bit & 1 == 1;
    [
        Opcode::LDM(on(3), on(2), on(1), on(0)),
        Opcode::STM(on(3), on(2), on(1), on(0)),
    ]
}

/// The flags of pop and push, without and with user mode.
fn pop_and_push() -> [Opcode; 4] {
    [
        Opcode::LDM(true, false, false, false),
        Opcode::LDM(true, false, false, true),
        Opcode::STM(false, true, false, false),
        Opcode::STM(false, true, false, true),
    ]
}

fn block(opcode: Opcode, base: u8, wback: bool, list: u16) -> Instruction {
    plain(
        opcode,
        &[Operand::RegWBack(r(base), wback), Operand::RegList(list)],
    )
}

/// Shapes that are not a base, a list and nothing more.
fn damaged(opcode: Opcode) -> Vec<Instruction> {
    let base = Operand::RegWBack(r(13), true);
    let list = Operand::RegList(0x8010);
    let nothing = Operand::Nothing;
    vec![
        plain(opcode, &[]),
        plain(opcode, &[base]),
        plain(opcode, &[nothing, list]),
        plain(opcode, &[list, base]),
        plain(opcode, &[reg(13), list]),
        plain(opcode, &[Operand::RegDeref(r(13)), list]),
        plain(opcode, &[base, reg(4)]),
        plain(opcode, &[base, Operand::Imm12(0x8010)]),
        plain(opcode, &[base, nothing, list]),
        plain(opcode, &[base, list, reg(0)]),
        plain(opcode, &[base, list, list]),
        plain(opcode, &[base, list, nothing, reg(0)]),
        plain(opcode, &[base, list, reg(0), reg(0)]),
    ]
}
