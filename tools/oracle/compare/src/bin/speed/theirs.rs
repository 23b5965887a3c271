//! The original's prints, into one text buffer.

use original::armv7::{Instruction, InstructionTextBuffer};
use std::hint::black_box;

/// Prints each instruction as often as there are rounds; answers how many bytes were printed.
pub fn print(instructions: &[Instruction], rounds: usize) -> usize {
    let mut buffer = InstructionTextBuffer::new();
    let mut bytes = 0;
    for _ in 0..rounds {
        for inst in instructions {
            let line = buffer.format_inst(&black_box(inst).display());
            bytes += black_box(line.expect("the text buffer takes all")).len();
        }
    }
    bytes
}
