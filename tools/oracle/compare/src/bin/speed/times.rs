//! What a line costs in time: the original's text buffer, and each way of the program `speed`.

use crate::mix;
use crate::program;
use crate::theirs;
use original::armv7::Instruction;
use std::time::{Duration, Instant};

/// So many lines are printed at a time, or somewhat fewer: the rounds are whole.
const LINES: usize = 50_000;

/// The least of so many times is taken.
const REPEATS: usize = 60;

/// A way of the program.
struct Way {
    name: &'static str,
    /// The way that does the same but for the lines, in all rounds; without it, no rounds of the way itself do.
    bare: Option<&'static str>,
}

const WAYS: [Way; 3] = [
    Way {
        name: "sink",
        bare: None,
    },
    Way {
        name: "buffer",
        bare: None,
    },
    Way {
        name: "page",
        bare: Some("none"),
    },
];

/// The least times of a run with its lines, and without them.
#[derive(Clone, Copy)]
struct Least {
    whole: Duration,
    bare: Duration,
}

/// A mix, printed so many rounds.
struct Measured<'a> {
    program: &'a str,
    instructions: &'a [Instruction],
    record: String,
    rounds: usize,
}

impl Measured<'_> {
    fn lines(&self) -> usize {
        self.instructions.len() * self.rounds
    }

    fn original(&self) -> Duration {
        let start = Instant::now();
        theirs::print(self.instructions, self.rounds);
        start.elapsed()
    }

    fn whole(&self, way: &Way) -> Result<Duration, String> {
        program::run(self.program, way.name, self.rounds, &self.record)
    }

    fn bare(&self, way: &Way) -> Result<Duration, String> {
        match way.bare {
            Some(name) => program::run(self.program, name, self.rounds, &self.record),
            None => program::run(self.program, way.name, 0, &self.record),
        }
    }

    fn tell(&self, mix: &str) -> Result<(), String> {
        let mut theirs = Duration::MAX;
        let most = Least {
            whole: Duration::MAX,
            bare: Duration::MAX,
        };
        let mut ours = [most; WAYS.len()];
        for _ in 0..REPEATS {
            theirs = theirs.min(self.original());
            for (way, least) in WAYS.iter().zip(&mut ours) {
                least.whole = least.whole.min(self.whole(way)?);
                least.bare = least.bare.min(self.bare(way)?);
            }
        }
        let theirs = theirs.as_nanos() as f64 / self.lines() as f64;
        println!("{mix}: original {theirs:.1} ns a line");
        for (way, least) in WAYS.iter().zip(ours) {
            let time = least.whole.saturating_sub(least.bare);
            let time = time.as_nanos() as f64 / self.lines() as f64;
            let name = way.name;
            println!(
                "{mix}: {name} {time:.1} ns a line, {:.2} times the original",
                time / theirs
            );
        }
        Ok(())
    }
}

pub fn tell(words: &str, program: &str) -> Result<(), String> {
    for mix in mix::NAMES {
        let instructions = mix::named(mix, words)?;
        let measured = Measured {
            program,
            record: program::record(&instructions),
            rounds: LINES / instructions.len(),
            instructions: &instructions,
        };
        measured.tell(mix)?;
    }
    Ok(())
}
