//! The traits that tie together an architecture, its decoder and its instructions.

use crate::{AddressDiff, Reader};
use core::fmt::{Debug, Display};

/// An architecture: the types that belong together.
pub trait Arch: Sized {
    type Address;
    type Word;
    type Instruction: Instruction
        + LengthedInstruction<Unit = AddressDiff<Self::Address>>
        + Debug
        + Default;
    type DecodeError: DecodeError;
    type Decoder: Decoder<Self> + Default;
    type Operand;
}

/// Makes instructions of words.
pub trait Decoder<A: Arch> {
    fn decode_into<T: Reader<A::Address, A::Word>>(
        &self,
        inst: &mut A::Instruction,
        words: &mut T,
    ) -> Result<(), A::DecodeError>;

    /// Decodes into a new instruction.
    fn decode<T: Reader<A::Address, A::Word>>(
        &self,
        words: &mut T,
    ) -> Result<A::Instruction, A::DecodeError> {
        let mut inst = A::Instruction::default();
        self.decode_into(&mut inst, words)?;
        Ok(inst)
    }
}

/// Why a word is not an instruction.
pub trait DecodeError: PartialEq + Debug + Display {
    fn data_exhausted(&self) -> bool;
    fn bad_opcode(&self) -> bool;
    fn bad_operand(&self) -> bool;
    fn description(&self) -> &'static str;
}

pub trait Instruction {
    fn well_defined(&self) -> bool;
}

/// An instruction that knows its length.
pub trait LengthedInstruction {
    type Unit;
    fn min_size() -> Self::Unit;
    fn len(&self) -> Self::Unit;
}
