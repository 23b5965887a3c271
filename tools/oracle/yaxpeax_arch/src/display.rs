//! The sinks that an instruction's line is written to.

mod fmt_sink;
mod recording_sink;
mod sink;
mod text_sink;

pub use fmt_sink::FmtSink;
pub use recording_sink::{Edge, Mark, Part, RecordingSink};
pub use sink::DisplaySink;
pub use text_sink::InstructionTextSink;
