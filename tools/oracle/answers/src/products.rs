//! Every opcode with every condition and flag, and with every operand.

use crate::make::{conditioned, fitting_operands, plain, reg, ALL_FLAGS, CONDITIONS};
use crate::{opcodes, operands};
use original::armv7::{Instruction, Opcode};

pub fn products() -> impl Iterator<Item = Instruction> {
    conditions_and_flags().chain(operands_at_each_place())
}

fn every_opcode() -> impl Iterator<Item = Opcode> {
    opcodes::without_codes()
        .into_iter()
        .chain(opcodes::with_each_code())
}

fn conditions_and_flags() -> impl Iterator<Item = Instruction> {
    every_opcode().flat_map(|opcode| {
        CONDITIONS.into_iter().flat_map(move |condition| {
            ALL_FLAGS
                .map(move |flags| conditioned(condition, flags, opcode, &fitting_operands(opcode)))
        })
    })
}

/// Puts each operand at each of the four places, among registers.
fn operands_at_each_place() -> impl Iterator<Item = Instruction> {
    every_opcode().flat_map(|opcode| {
        operands::kinds()
            .into_iter()
            .flatten()
            .flat_map(move |operand| {
                (0..4).map(move |place| {
                    let mut four = [reg(4), reg(10), reg(13), reg(2)];
                    four[place] = operand;
                    plain(opcode, &four)
                })
            })
    })
}
