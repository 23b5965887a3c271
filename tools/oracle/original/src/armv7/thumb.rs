//! The original's Thumb decoder is not among its two files; nothing decodes here.

mod line;

use super::{DecodeError, InstDecoder, Instruction};
use yaxpeax_arch::Reader;

pub fn decode_into<T: Reader<u32, u8>>(
    _decoder: &InstDecoder,
    _inst: &mut Instruction,
    _words: &mut T,
) -> Result<(), DecodeError> {
    Err(DecodeError::Incomplete)
}
