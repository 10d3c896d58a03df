//! Damaged inputs: bytes changed, texts cut short or near 16,384 bytes, run
//! lines missing, doubled or misspelled, schedules odd or out of range, and
//! inputs near 48,000 bytes.

use super::spelling::{spell, Spelled};
use super::{jobs, Random};

const TEXT_LIMIT: u64 = 16_384;
const INPUT_LIMIT: u64 = 48_000;

const RUN_LINES: [&[u8]; 14] = [
    b"",
    b"run",
    b"run\nrun\n",
    b"run \n",
    b" run\n",
    b"\nrun\n",
    b"run\r\n",
    b"Run\n",
    b"run run\n",
    b"run 0 0\n",
    b"ru\n",
    b"runs\nrun\n",
    b" run\nrun\n",
    b"run\n\n\n",
];

const SCHEDULE_WORDS: [&str; 16] = [
    "255",
    "256",
    "257",
    "260",
    "00",
    "01",
    "0255",
    "65536",
    "4294967296",
    "18446744073709551616",
    "zero",
    "run",
    "-1",
    "+1",
    "0x1",
    "1\t1",
];

pub fn input(random: &mut Random) -> Vec<u8> {
    let draft = jobs::draft(random);
    let mut spelled = spell(random, &draft);
    match random.weighted(&[13, 16, 16, 6, 12, 14, 14, 7, 2]) {
        0 => pad_text(random, &mut spelled.text),
        1 => change_bytes(random, &mut spelled.text),
        2 => cut_short(random, &mut spelled.text),
        3 => leave_out_tasks(random, &mut spelled.text),
        4 => spoil_run_line(random, &mut spelled),
        5 => spoil_schedule(random, &mut spelled.schedule),
        6 => return damaged_whole(random, spelled),
        7 => return padded_whole(random, spelled),
        _ => fill_schedule(random, &mut spelled),
    }
    spelled.join()
}

/// Gaps put into the text, up to about 16,384 bytes.
fn pad_text(random: &mut Random, text: &mut Vec<u8>) {
    let length = random.between(TEXT_LIMIT - 2, TEXT_LIMIT + 2) as usize;
    let is_gap = |index: &usize| matches!(text[*index], b' ' | b'\n');
    let gaps: Vec<usize> = (0..text.len()).filter(is_gap).collect();
    let at = random.pick(&gaps);
    let gap = random.pick(b" \n");
    let missing = length.saturating_sub(text.len());
    text.splice(at..at, vec![gap; missing]);
}

fn change_bytes(random: &mut Random, bytes: &mut [u8]) {
    for _ in 0..random.between(1, 3) {
        let at = random.index(bytes.len());
        bytes[at] = strange_byte(random);
    }
}

fn strange_byte(random: &mut Random) -> u8 {
    match random.below(5) {
        0 => random.pick(b"\t\r\0,-_\x7f\xff`{/:@["),
        1 => random.between(65, 90) as u8,
        2 => random.pick(b" \n"),
        3 => random.pick(b"aednrs0179"),
        _ => random.below(256) as u8,
    }
}

fn cut_short(random: &mut Random, bytes: &mut Vec<u8>) {
    let length = random.index(bytes.len());
    bytes.truncate(length);
    if random.chance(60) {
        bytes.push(b'\n');
    }
}

/// Leaves declarations, or less.
fn leave_out_tasks(random: &mut Random, text: &mut Vec<u8>) {
    let mut starts = text.windows(4).enumerate();
    if let Some((first_task, _)) = starts.find(|(_, word)| word == b"task") {
        text.truncate(first_task);
    }
    if random.chance(30) {
        text.clear();
    }
    for _ in 0..random.below(4) {
        text.push(random.pick(b" \n"));
    }
    if !text.is_empty() {
        text.push(b'\n');
    }
}

fn spoil_run_line(random: &mut Random, spelled: &mut Spelled) {
    spelled.run_line = random.pick(&RUN_LINES).to_vec();
    if random.chance(40) {
        spelled.schedule.clear();
    }
}

fn spoil_schedule(random: &mut Random, schedule: &mut Vec<u8>) {
    let word = random.pick(&SCHEDULE_WORDS);
    match random.below(4) {
        0 => schedule.extend(b"\n0"),
        1 => schedule.extend(format!(" 0 {word}\n").bytes()),
        2 => {
            schedule.splice(..0, format!("{word} 0 ").bytes());
        }
        _ if schedule.is_empty() => schedule.push(strange_byte(random)),
        _ => change_bytes(random, schedule),
    }
}

/// Bytes changed, lost or added anywhere.
fn damaged_whole(random: &mut Random, spelled: Spelled) -> Vec<u8> {
    let mut input = spelled.join();
    match random.below(4) {
        0 => change_bytes(random, &mut input),
        1 => cut_short(random, &mut input),
        2 => {
            let at = random.index(input.len());
            input.remove(at);
        }
        _ => {
            let at = random.index(input.len());
            input.insert(at, strange_byte(random));
        }
    }
    input
}

/// Blanks behind the schedule, up to about 48,000 bytes.
fn padded_whole(random: &mut Random, spelled: Spelled) -> Vec<u8> {
    let length = random.between(INPUT_LIMIT - 2, INPUT_LIMIT + 2) as usize;
    let mut input = spelled.join();
    input.resize(length.max(input.len()), b' ');
    input
}

/// Turns behind the schedule, up to about 48,000 bytes.
fn fill_schedule(random: &mut Random, spelled: &mut Spelled) {
    let taken = spelled.text.len() + spelled.run_line.len();
    let length = random.between(INPUT_LIMIT - 8, INPUT_LIMIT + 2) as usize;
    spelled.schedule.push(b'\n');
    while taken + spelled.schedule.len() + 4 <= length {
        let task = random.below(5);
        let choice = random.below(9);
        spelled.schedule.extend(format!("{task} {choice} ").bytes());
    }
    let missing = length.saturating_sub(taken + spelled.schedule.len());
    spelled.schedule.extend(vec![b'\n'; missing]);
}
