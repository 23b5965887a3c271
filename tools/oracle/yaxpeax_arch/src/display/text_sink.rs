//! A sink that appends to reserved memory without asking whether there is room.

use super::DisplaySink;
use core::fmt;

/// Appends to a string that has room for the whole line.
///
/// A character is written as one byte, so only characters below 128 are right.
pub struct InstructionTextSink<'buf> {
    buf: &'buf mut String,
}

impl<'buf> InstructionTextSink<'buf> {
    /// # Safety
    /// `buf` has room for all that will be written to this sink.
    #[inline(always)]
    pub unsafe fn new(buf: &'buf mut String) -> Self {
        InstructionTextSink { buf }
    }

    /// Lengthens the string by `length` bytes and gives the place of the first
    /// of them, which the caller then fills.
    #[inline(always)]
    fn grow(&mut self, length: usize) -> *mut u8 {
        debug_assert!(self.buf.capacity() - self.buf.len() >= length);
        // Safety: `new` was promised that there is room.
        unsafe {
            let bytes = self.buf.as_mut_vec();
            let place = bytes.as_mut_ptr().add(bytes.len());
            bytes.set_len(bytes.len() + length);
            place
        }
    }

    /// Appends `text` by moves of `TOP`, `TOP / 2`, ... 1 bytes, one for each
    /// bit that is set in its length. The length is below `2 * TOP`.
    #[inline(always)]
    fn append_by_halves<const TOP: usize>(&mut self, text: &str) {
        debug_assert!(text.len() < 2 * TOP);
        let place = self.grow(text.len());
        let mut size = TOP;
        let mut done = 0;
        while size > 0 {
            if text.len() & size != 0 {
                // Safety: `done + size` is at most the length of the text.
                unsafe {
                    core::ptr::copy_nonoverlapping(text.as_ptr().add(done), place.add(done), size);
                }
                done += size;
            }
            size /= 2;
        }
    }
}

impl fmt::Write for InstructionTextSink<'_> {
    #[inline(always)]
    fn write_str(&mut self, text: &str) -> fmt::Result {
        let place = self.grow(text.len());
        // Safety: `grow` gave room for the whole text.
        unsafe {
            core::ptr::copy_nonoverlapping(text.as_ptr(), place, text.len());
        }
        Ok(())
    }

    #[inline(always)]
    fn write_char(&mut self, c: char) -> fmt::Result {
        debug_assert!(c.is_ascii());
        // Safety: `grow` gave room for one byte.
        unsafe {
            self.grow(1).write(c as u8);
        }
        Ok(())
    }
}

impl DisplaySink for InstructionTextSink<'_> {
    #[inline(always)]
    unsafe fn write_lt_8(&mut self, text: &str) -> fmt::Result {
        self.append_by_halves::<4>(text);
        Ok(())
    }

    #[inline(always)]
    unsafe fn write_lt_16(&mut self, text: &str) -> fmt::Result {
        self.append_by_halves::<8>(text);
        Ok(())
    }

    #[inline(always)]
    unsafe fn write_lt_32(&mut self, text: &str) -> fmt::Result {
        self.append_by_halves::<16>(text);
        Ok(())
    }

    #[inline(always)]
    fn write_u32(&mut self, value: u32) -> fmt::Result {
        let digits = ((32 - (value | 1).leading_zeros()).div_ceil(4)) as usize;
        let place = self.grow(digits);
        let mut rest = value;
        for i in (0..digits).rev() {
            // Safety: `grow` gave room for all the digits.
            unsafe {
                place.add(i).write(b"0123456789abcdef"[rest as usize % 16]);
            }
            rest /= 16;
        }
        Ok(())
    }
}

#[cfg(test)]
mod tests {
    use super::*;
    use core::fmt::Write;

    fn written(write: impl FnOnce(&mut InstructionTextSink)) -> String {
        let mut text = String::with_capacity(200);
        // Safety: no test writes more than 200 bytes.
        write(&mut unsafe { InstructionTextSink::new(&mut text) });
        text
    }

    #[test]
    fn texts_of_each_length_are_appended_whole() {
        let text = "abcdefghijklmnopqrstuvwxyz01234";
        for length in 0..32 {
            let part = &text[..length];
            // Safety: the lengths are below the limits.
            let whole = written(|sink| unsafe {
                sink.write_char('<').unwrap();
                if length < 8 {
                    sink.write_lt_8(part).unwrap();
                }
                if length < 16 {
                    sink.write_lt_16(part).unwrap();
                }
                sink.write_lt_32(part).unwrap();
                sink.write_str(part).unwrap();
            });
            let copies = 2 + usize::from(length < 8) + usize::from(length < 16);
            assert_eq!(whole, format!("<{}", part.repeat(copies)));
        }
    }

    #[test]
    fn hex_is_the_same_as_the_standard_library_writes() {
        for value in [
            0,
            1,
            0xf,
            0x10,
            0xff,
            0x100,
            0xabcdef,
            0x1000_0000,
            u32::MAX,
        ] {
            assert_eq!(
                written(|sink| sink.write_u32(value).unwrap()),
                format!("{value:x}")
            );
        }
    }
}
