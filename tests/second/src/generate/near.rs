//! Near-valid jobs: a valid one with a word or number changed, dropped,
//! doubled, swapped or put in.

use super::{jobs, Draft, Random};

const RESERVED: [&str; 16] = [
    "chan", "task", "send", "forward", "recv", "close", "range", "repeat", "ifok", "else",
    "select", "case", "default", "stop", "end", "nil",
];

const STRANGE: [&str; 10] = [
    "run", "taks", "sends", "nill", "en", "end0", "0end", "x", "elseif", "nil0",
];

/// Words that shape a job, and go astray more often than others.
const SHAPING: [&str; 6] = ["else", "default", "case", "end", "task", "chan"];

/// Numbers at their limits, past them, and just past a power of two; and words
/// close to numbers.
const NUMBERS: [&str; 32] = [
    "0",
    "1",
    "8",
    "9",
    "15",
    "16",
    "17",
    "254",
    "255",
    "256",
    "260",
    "65535",
    "65536",
    "65537",
    "65540",
    "00",
    "07",
    "016",
    "0255",
    "4294967295",
    "4294967296",
    "4294967300",
    "18446744073709551615",
    "18446744073709551616",
    "18446744073709551620",
    "340282366920938463463374607431768211456",
    "340282366920938463463374607431768211460",
    "100000000000000000000000000000000000000000000000000",
    "0000000000000000000000000000000000000000000000000001",
    "1a",
    "a1",
    "nil",
];

pub fn draft(random: &mut Random) -> Draft {
    let mut draft = jobs::draft(random);
    let times = 1 + random.weighted(&[75, 20, 5]);
    for _ in 0..times {
        spoil(random, &mut draft.words);
    }
    draft
}

fn spoil(random: &mut Random, words: &mut Vec<String>) {
    let Some(last) = words.len().checked_sub(1) else {
        return;
    };
    let at = random.index(words.len());
    match random.weighted(&[12, 12, 8, 12, 6, 10, 10, 15, 15]) {
        0 => words[at] = any_word(random),
        1 => {
            words.remove(at);
        }
        2 => words.insert(at, words[at].clone()),
        3 => words.swap(at, (at + 1).min(last)),
        4 => words.swap(at, random.index(last + 1)),
        5 => words.insert(at, any_word(random)),
        6 => repeat_shaping_word(random, words),
        7 => spoil_number(random, words, any_number),
        _ => spoil_number(random, words, number_at_its_limit),
    }
}

/// Puts a copy of a shaping word a few words behind it.
fn repeat_shaping_word(random: &mut Random, words: &mut Vec<String>) {
    let shaping = random.pick(&SHAPING);
    let standing: Vec<usize> = (0..words.len())
        .filter(|index| words[*index] == shaping)
        .collect();
    if !standing.is_empty() {
        let behind = random.pick(&standing) + 1 + random.index(4);
        words.insert(behind.min(words.len()), shaping.to_string());
    }
}

/// A new number for the one at an index.
type Spoiling = fn(&mut Random, &[String], usize) -> String;

fn spoil_number(random: &mut Random, words: &mut [String], spoiling: Spoiling) {
    let is_number = |index: &usize| words[*index].starts_with(|c: char| c.is_ascii_digit());
    let numbers: Vec<usize> = (0..words.len()).filter(is_number).collect();
    if !numbers.is_empty() {
        let at = random.pick(&numbers);
        words[at] = spoiling(random, words, at);
    }
}

fn any_number(random: &mut Random, _: &[String], _: usize) -> String {
    random.pick(&NUMBERS).to_string()
}

/// The largest number that can stand there, or one more.
fn number_at_its_limit(random: &mut Random, words: &[String], at: usize) -> String {
    let channels = words.iter().filter(|word| *word == "chan").count() as u64;
    let beyond = match words[at.saturating_sub(1)].as_str() {
        "chan" => 17,
        "repeat" => 256,
        "send" | "forward" | "recv" | "close" | "range" => channels,
        _ => 65_536,
    };
    (beyond - random.below(2).min(beyond)).to_string()
}

pub fn any_word(random: &mut Random) -> String {
    let word = match random.weighted(&[70, 15, 15]) {
        0 => random.pick(&RESERVED),
        1 => random.pick(&STRANGE),
        _ => random.pick(&NUMBERS),
    };
    word.to_string()
}
