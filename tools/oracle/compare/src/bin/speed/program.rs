//! The program `speed` of the printer, which prints the instructions of a record.

use original::armv7::Instruction;
use std::fmt::Write as _;
use std::io::Write as _;
use std::process::{Command, Stdio};
use std::time::{Duration, Instant};

/// The instructions as a record.
pub fn record(instructions: &[Instruction]) -> String {
    let mut record = String::new();
    for inst in instructions {
        writeln!(record, "{inst:?}").expect("a string takes all");
    }
    record
}

/// Runs the program; answers how long that took, with its start and its reading.
pub fn run(program: &str, way: &str, rounds: usize, record: &str) -> Result<Duration, String> {
    let start = Instant::now();
    let mut child = Command::new(program)
        .args([way, &rounds.to_string()])
        .stdin(Stdio::piped())
        .stdout(Stdio::null())
        .spawn()
        .map_err(|error| format!("{program}: {error}"))?;
    child
        .stdin
        .take()
        .expect("it is piped")
        .write_all(record.as_bytes())
        .map_err(|error| error.to_string())?;
    let status = child.wait().map_err(|error| error.to_string())?;
    if !status.success() {
        return Err(format!("{program} {way} {rounds} failed"));
    }
    Ok(start.elapsed())
}
