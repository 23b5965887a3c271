//! A sink that records text and marks, each up to a limit.

use super::DisplaySink;
use core::fmt;

#[derive(Debug, Clone, Copy, PartialEq, Eq)]
pub enum Edge {
    Start,
    End,
}

/// The part of the line that a span covers.
#[derive(Debug, Clone, Copy, PartialEq, Eq)]
pub enum Part {
    Opcode,
    Register,
}

/// One edge of a span; `at` is the length of the text where it falls.
#[derive(Debug, Clone, Copy, PartialEq, Eq)]
pub struct Mark {
    pub edge: Edge,
    pub part: Part,
    pub at: usize,
}

/// Keeps the first bytes of the text and the first marks.
///
/// A write appends the first min(length, room) bytes, and answers an error
/// exactly if the piece is longer than the room. A span call appends a mark if
/// there are fewer marks than the limit.
pub struct RecordingSink {
    text: Vec<u8>,
    byte_limit: usize,
    marks: Vec<Mark>,
    mark_limit: usize,
}

impl RecordingSink {
    pub fn new(byte_limit: usize, mark_limit: usize) -> Self {
        RecordingSink {
            text: Vec::new(),
            byte_limit,
            marks: Vec::new(),
            mark_limit,
        }
    }

    /// The text and the marks.
    pub fn into_record(self) -> (Vec<u8>, Vec<Mark>) {
        (self.text, self.marks)
    }

    fn mark(&mut self, edge: Edge, part: Part) {
        if self.marks.len() < self.mark_limit {
            self.marks.push(Mark {
                edge,
                part,
                at: self.text.len(),
            });
        }
    }
}

impl fmt::Write for RecordingSink {
    fn write_str(&mut self, text: &str) -> fmt::Result {
        let piece = text.as_bytes();
        let room = self.byte_limit - self.text.len();
        self.text.extend_from_slice(&piece[..piece.len().min(room)]);
        if piece.len() > room {
            return Err(fmt::Error);
        }
        Ok(())
    }
}

impl DisplaySink for RecordingSink {
    fn span_start_opcode(&mut self) {
        self.mark(Edge::Start, Part::Opcode);
    }

    fn span_end_opcode(&mut self) {
        self.mark(Edge::End, Part::Opcode);
    }

    fn span_start_register(&mut self) {
        self.mark(Edge::Start, Part::Register);
    }

    fn span_end_register(&mut self) {
        self.mark(Edge::End, Part::Register);
    }
}

#[cfg(test)]
mod tests {
    use super::*;
    use core::fmt::Write;

    fn written(value: i32) -> String {
        let mut sink = RecordingSink::new(100, 0);
        sink.write_prefixed_i32(value).unwrap();
        String::from_utf8(sink.into_record().0).unwrap()
    }

    #[test]
    fn hex_has_no_leading_zeros_and_its_sign_before_the_prefix() {
        assert_eq!(written(0), "0x0");
        assert_eq!(written(0x1a), "0x1a");
        assert_eq!(written(-1), "-0x1");
        assert_eq!(written(i32::MAX), "0x7fffffff");
        assert_eq!(written(i32::MIN), "-0x80000000");
    }

    #[test]
    fn a_piece_longer_than_the_room_is_cut_and_answers_an_error() {
        let mut sink = RecordingSink::new(3, 1);
        assert_eq!(sink.write_str("ab"), Ok(()));
        sink.span_start_register();
        assert_eq!(sink.write_str("cd"), Err(fmt::Error));
        sink.span_end_register();
        let mark = Mark {
            edge: Edge::Start,
            part: Part::Register,
            at: 2,
        };
        assert_eq!(sink.into_record(), (b"abc".to_vec(), vec![mark]));
    }

    #[test]
    fn a_piece_that_just_fits_is_no_error() {
        let mut sink = RecordingSink::new(2, 0);
        assert_eq!(sink.write_str("ab"), Ok(()));
        assert_eq!(sink.write_str(""), Ok(()));
        assert_eq!(sink.into_record().0, b"ab");
    }
}
