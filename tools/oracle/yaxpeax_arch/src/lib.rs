//! A stand-in for the crate `yaxpeax_arch`.
//!
//! It has what the original's two files use of that crate, under the same
//! names, and a sink that records text and marks.

mod address;
mod arch;
mod color;
pub mod display;
mod reader;

pub use address::AddressDiff;
pub use arch::{Arch, DecodeError, Decoder, Instruction, LengthedInstruction};
pub use color::{Colorize, NoColors, ShowContextual, YaxColors};
pub use reader::{ReadError, Reader, U8Reader};
