//! Each opcode with all its flags: alone, and with conditions and flags taken
//! in turn.

use crate::make::{conditioned, fitting_operands, plain, CONDITIONS, S, W};
use crate::opcodes;
use original::armv7::{ConditionCode, Instruction};

pub fn all() -> Vec<Instruction> {
    let mut opcodes = opcodes::without_codes();
    opcodes.extend(opcodes::with_codes(14, 3, 7));
    let mut all = Vec::new();
    for (i, opcode) in opcodes.into_iter().enumerate() {
        let operands = fitting_operands(opcode);
        let condition = CONDITIONS[i % 14];
        let flags = [S, W, S | W][i % 3];
        all.push(plain(opcode, &operands));
        all.push(conditioned(condition, 0, opcode, &operands));
        all.push(conditioned(ConditionCode::AL, flags, opcode, &operands));
        all.push(conditioned(condition, S | W, opcode, &operands));
    }
    all
}
