//! Random instructions. Most have the shape that their opcode asks for, some not.

use crate::make::{conditioned, r, CONDITIONS};
use crate::opcodes;
use crate::operands::{BANKS, BRANCH_OFFSETS, HALFWORDS, MASKS, WORDS};
use crate::rng::Rng;
use original::armv7::{CReg, ConditionCode, Instruction, Opcode, Operand, Reg, RegShift};

pub fn instructions(seed: u64, count: usize) -> impl Iterator<Item = Instruction> {
    let mut rng = Rng::new(seed);
    let without_codes = opcodes::without_codes();
    (0..count).map(move |_| {
        let mut opcodes = without_codes.clone();
        opcodes.extend(opcodes::with_codes(
            code(&mut rng),
            code(&mut rng),
            code(&mut rng),
        ));
        let opcode = rng.pick(&opcodes);
        let operands = operands(&mut rng, opcode);
        let condition = if rng.coin() {
            ConditionCode::AL
        } else {
            rng.pick(&CONDITIONS)
        };
        let flags = if rng.coin() { 0 } else { rng.below(16) as u8 };
        conditioned(condition, flags, opcode, &operands)
    })
}

fn code(rng: &mut Rng) -> u8 {
    if rng.once_in(4) {
        rng.next() as u8
    } else {
        rng.below(16) as u8
    }
}

fn operands(rng: &mut Rng, opcode: Opcode) -> Vec<Operand> {
    let shaped = !rng.once_in(8);
    match opcode {
        Opcode::LDM(..) | Opcode::STM(..) if shaped => {
            let base = if rng.coin() { r(13) } else { register(rng) };
            vec![
                Operand::RegWBack(base, rng.coin()),
                Operand::RegList(rng.next() as u16),
            ]
        }
        Opcode::LDR if shaped && rng.coin() => {
            let at = Operand::RegDerefPostindexOffset(r(13), 4, true, rng.once_in(4));
            vec![Operand::Reg(register(rng)), at]
        }
        Opcode::STR if shaped && rng.coin() => {
            let at = Operand::RegDerefPreindexOffset(r(13), 4, false, !rng.once_in(4));
            vec![Operand::Reg(register(rng)), at]
        }
        Opcode::IT if shaped => {
            vec![
                Operand::Imm32(it_number(rng)),
                Operand::Imm32(it_number(rng)),
            ]
        }
        Opcode::CPS(_) if shaped => {
            vec![Operand::Imm12(rng.below(9) as u16), operand(rng)]
        }
        Opcode::SETEND if shaped => vec![Operand::Imm12(halfword(rng))],
        _ => (0..rng.below(5)).map(|_| operand(rng)).collect(),
    }
}

/// A condition or a mask of IT, some of them out of range.
fn it_number(rng: &mut Rng) -> u32 {
    if rng.once_in(4) {
        word(rng)
    } else {
        rng.below(16) as u32
    }
}

fn operand(rng: &mut Rng) -> Operand {
    match rng.below(25) {
        0 => Operand::RegWBack(register(rng), rng.coin()),
        1 => Operand::RegList(rng.next() as u16),
        2 => Operand::RegDeref(register(rng)),
        3 => Operand::RegShift(shift(rng)),
        4 => {
            // Write-back is a panic here.
            let wback = rng.once_in(8);
            Operand::RegDerefPostindexRegShift(register(rng), shift(rng), rng.coin(), wback)
        }
        5 => Operand::RegDerefPreindexRegShift(register(rng), shift(rng), rng.coin(), rng.coin()),
        6 => Operand::RegDerefPostindexOffset(register(rng), halfword(rng), rng.coin(), rng.coin()),
        7 => Operand::RegDerefPreindexOffset(register(rng), halfword(rng), rng.coin(), rng.coin()),
        8 => Operand::RegDerefPostindexReg(register(rng), register(rng), rng.coin(), rng.coin()),
        9 => Operand::RegDerefPreindexReg(register(rng), register(rng), rng.coin(), rng.coin()),
        10 => Operand::Imm12(halfword(rng)),
        11 => Operand::Imm32(word(rng)),
        12 => Operand::BranchOffset(branch_offset(rng)),
        13 => Operand::BranchThumbOffset(branch_offset(rng)),
        14 => Operand::CoprocOption(rng.next() as u8),
        15 => Operand::CReg(CReg::from_u8(rng.below(16) as u8)),
        16 => Operand::BankedReg(rng.pick(&BANKS), register(rng)),
        17 => Operand::BankedSPSR(rng.pick(&BANKS)),
        18 => Operand::StatusRegMask(rng.pick(&MASKS)),
        19 => rng.pick(&[Operand::APSR, Operand::SPSR, Operand::CPSR]),
        20 if rng.once_in(4) => Operand::Nothing,
        #[allow(deprecated)]
        21 if rng.once_in(4) => Operand::Coprocessor(rng.next() as u8),
        _ => Operand::Reg(register(rng)),
    }
}

fn register(rng: &mut Rng) -> Reg {
    r(rng.below(16) as u8)
}

fn shift(rng: &mut Rng) -> RegShift {
    RegShift::from_raw(rng.next() as u16)
}

/// A number of random size.
fn any_size(rng: &mut Rng) -> u64 {
    let unused_bits = rng.below(64);
    rng.next() >> unused_bits
}

fn halfword(rng: &mut Rng) -> u16 {
    if rng.once_in(4) {
        rng.pick(&HALFWORDS)
    } else {
        any_size(rng) as u16
    }
}

fn word(rng: &mut Rng) -> u32 {
    if rng.once_in(4) {
        rng.pick(&WORDS)
    } else {
        any_size(rng) as u32
    }
}

fn branch_offset(rng: &mut Rng) -> i32 {
    if rng.once_in(4) {
        return rng.pick(&BRANCH_OFFSETS);
    }
    let offset = any_size(rng) as i32;
    if rng.coin() {
        offset.wrapping_neg()
    } else {
        offset
    }
}
