//! A way to `visit_inst` for a sink of our own.
//!
//! The original keeps `visit_inst` inside its module `armv7`. This file is
//! inside that module too, as a part of `thumb`, so it may call it.

use crate::armv7::{display, Instruction};
use core::fmt;
use yaxpeax_arch::display::DisplaySink;

impl Instruction {
    /// Writes the instruction's line to `sink`.
    pub fn write_line<T: DisplaySink>(&self, sink: &mut T) -> fmt::Result {
        display::visit_inst(self, sink)
    }
}
