//! Asks the original for the line of an instruction.

use original::armv7::{Instruction, InstructionTextBuffer};
use std::panic::{catch_unwind, set_hook, take_hook};
use std::sync::atomic::{AtomicBool, Ordering};
use yaxpeax_arch::display::{Mark, RecordingSink};

/// How much the recording sink keeps.
#[derive(Clone, Copy)]
pub struct Limits {
    pub bytes: usize,
    pub marks: usize,
}

/// Enough for the longest line, so that nothing is cut.
pub const NO_LIMITS: Limits = Limits {
    bytes: 4096,
    marks: 4096,
};

pub enum Answer {
    /// The whole line was written.
    Whole(Vec<u8>, Vec<Mark>),
    /// The sink had no room left, and the original stopped.
    Cut(Vec<u8>, Vec<Mark>),
    Panicked,
}

/// Whether the original is running, so that a panic is its own.
static ASKING: AtomicBool = AtomicBool::new(false);

/// Keeps the original's panics from printing messages.
pub fn hush_the_original() {
    let usual = take_hook();
    set_hook(Box::new(move |panic| {
        if !ASKING.load(Ordering::Relaxed) {
            usual(panic);
        }
    }));
}

pub fn ask(inst: &Instruction, limits: Limits) -> Answer {
    ASKING.store(true, Ordering::Relaxed);
    let answer = catch_unwind(|| {
        let mut sink = RecordingSink::new(limits.bytes, limits.marks);
        let result = inst.write_line(&mut sink);
        let (text, marks) = sink.into_record();
        match result {
            Ok(()) => Answer::Whole(text, marks),
            Err(_) => Answer::Cut(text, marks),
        }
    })
    .unwrap_or(Answer::Panicked);
    ASKING.store(false, Ordering::Relaxed);
    if let Answer::Whole(text, _) = &answer {
        check_other_ways(inst, text);
    }
    answer
}

/// The original's two public ways to a line give the same text. Its text
/// buffer is only meant for ASCII.
fn check_other_ways(inst: &Instruction, text: &[u8]) {
    assert_eq!(inst.to_string().as_bytes(), text, "{inst:?}");
    if text.is_ascii() {
        let mut buffer = InstructionTextBuffer::new();
        let line = buffer
            .format_inst(&inst.display())
            .expect("the text buffer takes all");
        assert_eq!(line.as_bytes(), text, "{inst:?}");
    }
}
