//! Measures the original's prints, and the times of the printer's program `speed` beside them.

mod mix;
mod program;
mod theirs;
mod times;

use answers::{ask, command};
use std::process::ExitCode;

const USAGE: &str = "\
usage: speed record WORDS MIX            the instructions of a mix, as a record
       speed original WORDS MIX ROUNDS   the original's prints of them, to be counted
       speed times WORDS PROGRAM         times of the original and of each way of the program";

fn run(arguments: &[&str]) -> Result<(), String> {
    match *arguments {
        ["record", words, mix] => print!("{}", program::record(&mix::named(mix, words)?)),
        ["original", words, mix, rounds] => {
            let rounds = rounds.parse().map_err(|_| "the rounds are a number")?;
            let bytes = theirs::print(&mix::named(mix, words)?, rounds);
            println!("{bytes} bytes");
        }
        ["times", words, program] => times::tell(words, program)?,
        _ => return Err(USAGE.to_string()),
    }
    Ok(())
}

fn main() -> ExitCode {
    ask::hush_the_original();
    command::done(run)
}
