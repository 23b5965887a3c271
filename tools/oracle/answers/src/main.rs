//! Makes instructions, asks the original for the line and the marks of each,
//! and writes the answers.

use answers::ask::{self, Limits};
use answers::{chosen, command, products, random, topics, words, write};
use original::armv7::Instruction;
use std::io::{self, BufWriter, Write};
use std::process::ExitCode;

const USAGE: &str = "\
usage: answers [--limits BYTES MARKS] LIST
LIST is one of
  chosen SEED FILE          the list to store: topics, random ones, words
  topics                    each topic's instructions
  products                  every opcode with every condition, flag and operand
  random SEED COUNT         random instructions
  words FILE                the ARM words of FILE, decoded
  random-words SEED COUNT   random ARM words that decode";

fn main() -> ExitCode {
    command::done(run)
}

fn run(arguments: &[&str]) -> Result<(), String> {
    let (limits, list) = match arguments {
        ["--limits", bytes, marks, list @ ..] => (
            Limits {
                bytes: number(bytes)?,
                marks: number(marks)?,
            },
            list,
        ),
        list => (ask::NO_LIMITS, list),
    };
    match answer_all(instructions(list)?, limits) {
        // The reader has had enough.
        Err(error) if error.kind() == io::ErrorKind::BrokenPipe => Ok(()),
        result => result.map_err(|error| error.to_string()),
    }
}

fn instructions(list: &[&str]) -> Result<Box<dyn Iterator<Item = Instruction>>, String> {
    Ok(match list {
        ["chosen", seed, file] => Box::new(chosen::chosen(number(seed)?, file)?.into_iter()),
        ["topics"] => Box::new(topics::all().into_iter()),
        ["products"] => Box::new(products::products()),
        ["random", seed, count] => Box::new(random::instructions(number(seed)?, number(count)?)),
        ["words", file] => Box::new(words::from_file(file)?.into_iter()),
        ["random-words", seed, count] => Box::new(words::random(number(seed)?, number(count)?)),
        _ => return Err(USAGE.to_string()),
    })
}

fn number<T: std::str::FromStr>(text: &str) -> Result<T, String> {
    text.parse().map_err(|_| format!("not a number: {text}"))
}

fn answer_all(instructions: impl Iterator<Item = Instruction>, limits: Limits) -> io::Result<()> {
    ask::hush_the_original();
    let mut out = BufWriter::new(io::stdout().lock());
    for inst in instructions {
        write::case(&mut out, &inst, &ask::ask(&inst, limits))?;
    }
    out.flush()
}
