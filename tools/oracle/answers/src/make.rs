//! Makes instructions and operands in few words.

use original::armv7::{ConditionCode, Instruction, Opcode, Operand, Reg};

pub const CONDITIONS: [ConditionCode; 15] = [
    ConditionCode::EQ,
    ConditionCode::NE,
    ConditionCode::HS,
    ConditionCode::LO,
    ConditionCode::MI,
    ConditionCode::PL,
    ConditionCode::VS,
    ConditionCode::VC,
    ConditionCode::HI,
    ConditionCode::LS,
    ConditionCode::GE,
    ConditionCode::LT,
    ConditionCode::GT,
    ConditionCode::LE,
    ConditionCode::AL,
];

/// The flags of an instruction as bits: s, thumb_w, wide, thumb from the lowest.
pub type Flags = u8;

pub const S: Flags = 1;
pub const W: Flags = 2;
pub const ALL_FLAGS: std::ops::Range<Flags> = 0..16;

/// An instruction with `condition` and `flags`; the operands that are not
/// given are `Nothing`.
pub fn conditioned(
    condition: ConditionCode,
    flags: Flags,
    opcode: Opcode,
    operands: &[Operand],
) -> Instruction {
    let mut four = [Operand::Nothing; 4];
    four[..operands.len()].copy_from_slice(operands);
    Instruction {
        condition,
        opcode,
        operands: four,
        s: flags & S != 0,
        thumb_w: flags & W != 0,
        wide: flags & 4 != 0,
        thumb: flags & 8 != 0,
    }
}

/// An instruction that is always done and has no flags.
pub fn plain(opcode: Opcode, operands: &[Operand]) -> Instruction {
    conditioned(ConditionCode::AL, 0, opcode, operands)
}

pub fn r(number: u8) -> Reg {
    Reg::from_u8(number)
}

pub fn reg(number: u8) -> Operand {
    Operand::Reg(r(number))
}

/// Operands that suit the opcode: those with a shape of their own get it, the
/// others get three registers.
pub fn fitting_operands(opcode: Opcode) -> Vec<Operand> {
    match opcode {
        Opcode::LDM(..) | Opcode::STM(..) => {
            vec![Operand::RegWBack(r(4), true), Operand::RegList(0x8010)]
        }
        Opcode::IT => vec![Operand::Imm32(1), Operand::Imm32(0b1010)],
        Opcode::CPS(_) => vec![Operand::Imm12(0b110), Operand::Imm12(0x13)],
        Opcode::SETEND => vec![Operand::Imm12(1)],
        _ => vec![reg(0), reg(9), reg(15)],
    }
}
