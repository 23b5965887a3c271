//! Holds the printer's static library against the original, in one process.

mod explain;
mod library;
mod lines;

use answers::{ask, command};
use std::process::ExitCode;

const USAGE: &str =
    "usage: held SEED COUNT VECTORS   random instructions and decoded words: texts and marks";

fn run(arguments: &[&str]) -> Result<(), String> {
    match *arguments {
        [seed, count, vectors] => lines::run(seed, count, vectors),
        _ => Err(USAGE.to_string()),
    }
}

fn main() -> ExitCode {
    ask::hush_the_original();
    command::done(run)
}
