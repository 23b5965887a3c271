//! The original's ARMv7 part. build.sh puts its two files beside ours:
//! `armv7.rs` and `armv7/display.rs`.

#![no_std]

extern crate alloc;
extern crate yaxpeax_arch;

pub mod armv7;
