//! What can be written to a sink, and what it means.

use core::fmt;

/// The start and the end of each kind of span; a sink that keeps no marks
/// leaves them empty.
macro_rules! spans {
    ($($start:ident $end:ident)*) => {
        $(
            #[inline(always)]
            fn $start(&mut self) {}
            #[inline(always)]
            fn $end(&mut self) {}
        )*
    };
}

/// A sink of text with marked spans.
///
/// A number is written in hex: `0x`, then lower-case digits without leading
/// zeros; a negative number has `-` before `0x`.
pub trait DisplaySink: fmt::Write {
    /// Writes a text whose length is known when the program is built.
    #[inline(always)]
    fn write_fixed_size(&mut self, text: &str) -> fmt::Result {
        self.write_str(text)
    }

    /// # Safety
    /// `text` is shorter than 8 bytes.
    #[inline(always)]
    unsafe fn write_lt_8(&mut self, text: &str) -> fmt::Result {
        self.write_str(text)
    }

    /// # Safety
    /// `text` is shorter than 16 bytes.
    #[inline(always)]
    unsafe fn write_lt_16(&mut self, text: &str) -> fmt::Result {
        self.write_str(text)
    }

    /// # Safety
    /// `text` is shorter than 32 bytes.
    #[inline(always)]
    unsafe fn write_lt_32(&mut self, text: &str) -> fmt::Result {
        self.write_str(text)
    }

    /// Writes the hex digits alone, without `0x`.
    #[inline(always)]
    fn write_u32(&mut self, value: u32) -> fmt::Result {
        write!(self, "{value:x}")
    }

    #[inline(always)]
    fn write_prefixed_u32(&mut self, value: u32) -> fmt::Result {
        self.write_fixed_size("0x")?;
        self.write_u32(value)
    }

    #[inline(always)]
    fn write_prefixed_u16(&mut self, value: u16) -> fmt::Result {
        self.write_prefixed_u32(value.into())
    }

    #[inline(always)]
    fn write_prefixed_u8(&mut self, value: u8) -> fmt::Result {
        self.write_prefixed_u32(value.into())
    }

    #[inline(always)]
    fn write_prefixed_i32(&mut self, value: i32) -> fmt::Result {
        if value < 0 {
            self.write_char('-')?;
        }
        self.write_prefixed_u32(value.unsigned_abs())
    }

    spans! {
        span_start_opcode span_end_opcode
        span_start_register span_end_register
        span_start_immediate span_end_immediate
        span_start_number span_end_number
        span_start_address span_end_address
        span_start_program_counter span_end_program_counter
        span_start_function_expr span_end_function_expr
    }
}
