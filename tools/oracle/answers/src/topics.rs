//! Instructions chosen topic by topic.

mod blocks;
mod branches;
mod conditions;
mod coprocessor;
mod every_opcode;
mod if_then;
mod places;
mod single_stack;
mod system;

use original::armv7::Instruction;

pub fn all() -> Vec<Instruction> {
    let topics = [
        every_opcode::all(),
        conditions::all(),
        places::all(),
        blocks::all(),
        single_stack::all(),
        if_then::all(),
        system::all(),
        coprocessor::all(),
        branches::all(),
    ];
    topics.into_iter().flatten().collect()
}
