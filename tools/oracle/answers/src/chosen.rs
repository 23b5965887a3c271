//! The list to store: each topic, some random instructions, the words of a
//! file and some random words, none of them twice.

use crate::{random, topics, words};
use original::armv7::Instruction;
use std::collections::HashSet;

const RANDOM_INSTRUCTIONS: usize = 300;
const RANDOM_WORDS: usize = 200;

pub fn chosen(seed: u64, words_file: &str) -> Result<Vec<Instruction>, String> {
    let mut all = topics::all();
    all.extend(random::instructions(seed, RANDOM_INSTRUCTIONS));
    all.extend(words::from_file(words_file)?);
    all.extend(words::random(seed, RANDOM_WORDS));
    let mut seen = HashSet::new();
    all.retain(|inst| seen.insert(format!("{inst:?}")));
    Ok(all)
}
