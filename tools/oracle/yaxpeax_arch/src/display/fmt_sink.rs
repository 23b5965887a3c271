//! A sink that passes text on and keeps no marks.

use super::DisplaySink;
use core::fmt;

/// Passes text on to `out`.
pub struct FmtSink<'out, T> {
    out: &'out mut T,
}

impl<'out, T: fmt::Write> FmtSink<'out, T> {
    pub fn new(out: &'out mut T) -> Self {
        FmtSink { out }
    }
}

impl<T: fmt::Write> fmt::Write for FmtSink<'_, T> {
    fn write_str(&mut self, text: &str) -> fmt::Result {
        self.out.write_str(text)
    }

    fn write_char(&mut self, c: char) -> fmt::Result {
        self.out.write_char(c)
    }
}

impl<T: fmt::Write> DisplaySink for FmtSink<'_, T> {}
