//! Hands the cases that differ to the program `vectors`, which explains each by the listed differences or fails.

use answers::ask::Answer;
use answers::write;
use original::armv7::Instruction;
use std::io::Write;
use std::process::{Command, Stdio};

/// So many cases are explained at a time.
const BATCH: usize = 50_000;

pub struct Explainer<'a> {
    program: &'a str,
    cases: Vec<u8>,
    waiting: usize,
    pub explained: usize,
    /// How many cases show each difference.
    rows: Vec<(String, usize)>,
}

impl<'a> Explainer<'a> {
    pub fn new(program: &'a str) -> Self {
        Explainer {
            program,
            cases: Vec::new(),
            waiting: 0,
            explained: 0,
            rows: Vec::new(),
        }
    }

    pub fn add(&mut self, inst: &Instruction, answer: &Answer) -> Result<(), String> {
        write::case(&mut self.cases, inst, answer).map_err(|error| error.to_string())?;
        self.waiting += 1;
        if self.waiting == BATCH {
            return self.flush();
        }
        Ok(())
    }

    pub fn flush(&mut self) -> Result<(), String> {
        let cases = std::mem::take(&mut self.cases);
        let mut child = Command::new(self.program)
            .stdin(Stdio::piped())
            .stdout(Stdio::piped())
            .spawn()
            .map_err(|error| format!("{}: {error}", self.program))?;
        // The program reads all before it writes, so this does not wait for itself.
        child
            .stdin
            .take()
            .expect("it is piped")
            .write_all(&cases)
            .map_err(|error| error.to_string())?;
        let output = child
            .wait_with_output()
            .map_err(|error| error.to_string())?;
        let told = String::from_utf8_lossy(&output.stdout);
        if !output.status.success() {
            return Err(told.into_owned());
        }
        self.count(&told);
        self.explained += self.waiting;
        self.waiting = 0;
        Ok(())
    }

    /// Adds up the rows of the table that was told.
    fn count(&mut self, told: &str) {
        for (at, row) in told.lines().skip(1).enumerate() {
            let (number, name) = row
                .trim_start()
                .split_once("  ")
                .expect("a number and a name");
            if self.rows.len() == at {
                self.rows.push((name.to_string(), 0));
            }
            self.rows[at].1 += number.parse::<usize>().expect("a number");
        }
    }

    pub fn tell(&self) {
        for (name, number) in &self.rows {
            println!("{number:>9}  {name}");
        }
    }
}
