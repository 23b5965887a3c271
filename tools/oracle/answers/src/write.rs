//! Writes a case: an instruction and its answer.

use crate::ask::Answer;
use original::armv7::Instruction;
use std::io::{self, Write};
use yaxpeax_arch::display::{Edge, Mark, Part};

pub fn case(out: &mut impl Write, inst: &Instruction, answer: &Answer) -> io::Result<()> {
    writeln!(out, "{inst:?}")?;
    match answer {
        Answer::Whole(text, marks) => line_and_marks(out, '=', text, marks),
        Answer::Cut(text, marks) => line_and_marks(out, '~', text, marks),
        Answer::Panicked => writeln!(out, "! panicked"),
    }
}

fn line_and_marks(out: &mut impl Write, sign: char, text: &[u8], marks: &[Mark]) -> io::Result<()> {
    write!(out, "{sign} ")?;
    for &byte in text {
        match byte {
            b'\\' => write!(out, "\\x5c")?,
            32..=126 => out.write_all(&[byte])?,
            _ => write!(out, "\\x{byte:02x}")?,
        }
    }
    write!(out, "\nm")?;
    for mark in marks {
        let edge = match mark.edge {
            Edge::Start => 's',
            Edge::End => 'e',
        };
        let part = match mark.part {
            Part::Opcode => 'o',
            Part::Register => 'r',
        };
        write!(out, " {edge}{part}{}", mark.at)?;
    }
    writeln!(out)
}
