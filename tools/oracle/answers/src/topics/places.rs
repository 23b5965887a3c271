//! Each operand at the first place, each kind at each place, and `Nothing` and
//! `Coprocessor` anywhere.

use crate::make::{plain, reg};
use crate::operands;
use original::armv7::{Instruction, Opcode, Operand};

pub fn all() -> Vec<Instruction> {
    let mut all = Vec::new();
    for kind in operands::kinds() {
        for &operand in &kind {
            all.push(plain(Opcode::MOV, &[operand]));
        }
        let middle = kind[kind.len() / 2];
        for place in 0..4 {
            let mut four = [reg(4), reg(10), reg(13), reg(2)];
            four[place] = middle;
            all.push(plain(Opcode::MSR, &four));
        }
    }
    // The usual path, and the three coprocessor paths that walk through the operands too.
    for opcode in [
        Opcode::ADD,
        Opcode::STC2(9),
        Opcode::MRRC2(9, 9),
        Opcode::CDP2(9, 9, 9),
    ] {
        all.extend(holes(opcode));
        all.extend(coprocessors(opcode));
    }
    all
}

/// All ways to have `Nothing` at some of the four places.
fn holes(opcode: Opcode) -> Vec<Instruction> {
    let at = |there: u8, place: u8| match there >> place & 1 {
        0 => Operand::Nothing,
        _ => reg(place),
    };
    let instruction = |there: u8| {
        plain(
            opcode,
            &[at(there, 0), at(there, 1), at(there, 2), at(there, 3)],
        )
    };
    (0..16).map(instruction).collect()
}

/// `Coprocessor` at each place, and behind `Nothing`, where it is not reached.
fn coprocessors(opcode: Opcode) -> Vec<Instruction> {
    #[allow(deprecated)]
    let coprocessor = Operand::Coprocessor(1);
    vec![
        plain(opcode, &[coprocessor]),
        plain(opcode, &[reg(0), coprocessor]),
        plain(opcode, &[reg(0), reg(1), coprocessor]),
        plain(opcode, &[reg(0), reg(1), reg(2), coprocessor]),
        plain(opcode, &[Operand::Nothing, coprocessor]),
        plain(opcode, &[reg(0), Operand::Nothing, coprocessor]),
        plain(opcode, &[reg(0), reg(1), Operand::Nothing, coprocessor]),
    ]
}
