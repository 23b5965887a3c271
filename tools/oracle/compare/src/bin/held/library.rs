//! The static library of the printer.

use std::ffi::c_void;

/// What came of a call; the header `dithwellor.h` says what the fields mean.
#[repr(C)]
#[derive(Clone, Copy, Default, PartialEq, Eq)]
pub struct Answer {
    pub length: usize,
    pub marks: usize,
    pub column: usize,
    pub number: u8,
    pub place: u8,
}

unsafe extern "C" {
    fn dithwellor_read(line: *const u8, line_length: usize) -> usize;
    fn dithwellor_print(
        line: *const u8,
        line_length: usize,
        out: *mut u8,
        out_length: usize,
        answer: *mut c_void,
    );
    fn dithwellor_print_marked(
        line: *const u8,
        line_length: usize,
        out: *mut u8,
        out_length: usize,
        row: *mut u64,
        row_length: usize,
        answer: *mut c_void,
    );
}

/// The column of what cannot be read in the line, or 0.
pub fn read(line: &[u8]) -> usize {
    // Safety: the pointer and the length are those of a slice.
    unsafe { dithwellor_read(line.as_ptr(), line.len()) }
}

pub fn print(line: &[u8], out: &mut [u8]) -> Answer {
    let mut answer = Answer::default();
    // Safety: the pointers and the lengths are those of slices, and the answer has the header's layout.
    unsafe {
        dithwellor_print(
            line.as_ptr(),
            line.len(),
            out.as_mut_ptr(),
            out.len(),
            (&raw mut answer).cast(),
        );
    }
    answer
}

pub fn print_marked(line: &[u8], out: &mut [u8], row: &mut [u64]) -> Answer {
    let mut answer = Answer::default();
    // Safety: as for `print`.
    unsafe {
        dithwellor_print_marked(
            line.as_ptr(),
            line.len(),
            out.as_mut_ptr(),
            out.len(),
            row.as_mut_ptr(),
            row.len(),
            (&raw mut answer).cast(),
        );
    }
    answer
}
