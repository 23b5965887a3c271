//! Every line and every mark, the library's against the original's.

use crate::explain::Explainer;
use crate::library;
use answers::ask::{ask, Answer, NO_LIMITS};
use answers::{random, words};
use std::fmt::Write;
use yaxpeax_arch::display::{Edge, Mark, Part};

pub fn run(seed: &str, count: &str, vectors: &str) -> Result<(), String> {
    let seed: u64 = seed.parse().map_err(|_| "a seed is a number")?;
    let count: usize = count.parse().map_err(|_| "a count is a number")?;
    let mut equal = 0;
    let mut explainer = Explainer::new(vectors);
    let made = random::instructions(seed, count - count / 4);
    let decoded = words::random(seed, count / 4);
    let mut notation = String::new();
    for inst in made.chain(decoded) {
        notation.clear();
        write!(notation, "{inst:?}").expect("a string takes all");
        let answer = ask(&inst, NO_LIMITS);
        if is_equal(&notation, &answer)? {
            equal += 1;
        } else {
            explainer.add(&inst, &answer)?;
        }
    }
    explainer.flush()?;
    println!(
        "seed {seed}: {} instructions, {equal} equal in text and marks, {} explained by listed differences",
        equal + explainer.explained,
        explainer.explained
    );
    explainer.tell();
    Ok(())
}

/// Whether the library writes the same text and the same marks. Its functions have to agree.
fn is_equal(notation: &str, answer: &Answer) -> Result<bool, String> {
    let line = notation.as_bytes();
    let mut out = [0; 512];
    let mut row = [0; 256];
    let ours = library::print_marked(line, &mut out, &mut row);
    let mut unmarked_out = [0; 512];
    let unmarked = library::print(line, &mut unmarked_out);
    let without_marks = library::Answer { marks: 0, ..ours };
    if library::read(line) != ours.column || unmarked != without_marks || unmarked_out != out {
        return Err(format!("the library's functions differ: {notation}"));
    }
    let Answer::Whole(text, marks) = answer else {
        return Ok(false);
    };
    let theirs: Vec<u64> = marks.iter().map(number).collect();
    Ok(ours.column == 0
        && ours.number == 0
        && out[..ours.length] == text[..]
        && row[..ours.marks] == theirs[..])
}

/// A mark as the library numbers it.
fn number(mark: &Mark) -> u64 {
    let edge = match mark.edge {
        Edge::Start => 0,
        Edge::End => 2,
    };
    let part = match mark.part {
        Part::Opcode => 0,
        Part::Register => 1,
    };
    4 * mark.at as u64 + edge + part
}
