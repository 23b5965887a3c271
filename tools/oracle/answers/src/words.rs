//! Instructions that the original's own ARM decoder makes of words.

use crate::rng::Rng;
use original::armv7::{InstDecoder, Instruction};
use yaxpeax_arch::{Decoder, U8Reader};

/// The words of a file that decode. On each line the first part is a word in
/// hex and the rest is for the reader; a line with `#` first has no word.
pub fn from_file(path: &str) -> Result<Vec<Instruction>, String> {
    let text = std::fs::read_to_string(path).map_err(|error| format!("{path}: {error}"))?;
    let mut all = Vec::new();
    for line in text.lines() {
        let Some(part) = line.split_whitespace().next() else {
            continue;
        };
        if part.starts_with('#') {
            continue;
        }
        let word = u32::from_str_radix(part, 16).map_err(|_| format!("not a word: {line}"))?;
        all.extend(decode(word));
    }
    Ok(all)
}

/// Random words, until `count` have decoded. Half of them are always done, as
/// in real code.
pub fn random(seed: u64, count: usize) -> impl Iterator<Item = Instruction> {
    let mut rng = Rng::new(seed);
    std::iter::repeat_with(move || {
        let word = rng.next() as u32;
        if rng.coin() {
            word & 0x0fff_ffff | 0xe000_0000
        } else {
            word
        }
    })
    .filter_map(decode)
    .take(count)
}

fn decode(word: u32) -> Option<Instruction> {
    let bytes = word.to_le_bytes();
    InstDecoder::default()
        .decode(&mut U8Reader::new(&bytes))
        .ok()
}
