//! Jobs at the limits of document 01, and just past them: channels and tasks,
//! cases, depth, rows, and several of these at one word. What follows the word
//! that goes past a limit is at times bad too.

use super::jobs::{draft_of, job, Writer};
use super::near::any_word;
use super::{Draft, Random};

const ROW_LIMIT: u64 = 1_024;

pub fn draft(random: &mut Random) -> Draft {
    let words = match random.below(7) {
        0 => many_chans(random),
        1 => many_tasks(random),
        2 => many_cases(random),
        3 => deep_blocks(random),
        4 => many_rows(random),
        5 => cases_at_the_brim(random),
        _ => blocks_at_the_brim(random),
    };
    draft_of(random, words)
}

fn many_chans(random: &mut Random) -> Vec<String> {
    let declared = random.between(15, 17);
    let mut words = job(random, declared, 3);
    if random.chance(25) {
        words.extend(["chan", "0"].map(String::from));
    }
    if random.chance(25) {
        let last_capacity = 2 * declared as usize - 1;
        words[last_capacity] = any_word(random);
    }
    words
}

fn many_tasks(random: &mut Random) -> Vec<String> {
    let channels = random.between(0, 3);
    let tasks = random.between(15, 17);
    let mut words = job(random, channels, tasks);
    if random.chance(25) {
        words.push(any_word(random));
    }
    words
}

fn many_cases(random: &mut Random) -> Vec<String> {
    let mut words = job(random, 2, 2);
    let mut writer = Writer::new(random, 2);
    writer.say("task");
    let cases = writer.random.between(7, 9);
    write_cases(&mut writer, cases);
    writer.say("end");
    words.append(&mut writer.words);
    words
}

/// A select of `cases` cases; its default, if any, at times too early.
fn write_cases(writer: &mut Writer, cases: u64) {
    let default = match writer.random.weighted(&[50, 35, 15]) {
        0 => None,
        1 => Some(cases),
        _ => Some(cases - 1),
    };
    writer.say("select");
    for case in 0..=cases {
        if default == Some(case) {
            writer.say("default");
        }
        if case < cases {
            writer.say("case");
            let is_last = case + 1 == cases;
            write_operation(writer, is_last);
        }
    }
    writer.say("end");
}

/// An operation, or at times another word where one `may_be_bad`.
fn write_operation(writer: &mut Writer, may_be_bad: bool) {
    if may_be_bad && writer.random.chance(20) {
        let word = any_word(writer.random);
        writer.say(&word);
    } else {
        writer.operation();
    }
}

fn deep_blocks(random: &mut Random) -> Vec<String> {
    let mut words = job(random, 2, 2);
    let mut writer = Writer::new(random, 2);
    writer.say("task");
    let depth = writer.random.between(5, 7);
    write_blocks(&mut writer, depth);
    writer.say("end");
    words.append(&mut writer.words);
    words
}

/// `depth` blocks, one inside the other.
fn write_blocks(writer: &mut Writer, depth: u64) {
    let mut closing = Vec::new();
    for around in 0..depth {
        let channel = writer.channel();
        let (opened, closed) = match writer.random.below(7) {
            0 => (format!("range {channel}"), "end"),
            1 => (String::from("repeat 2"), "end"),
            2 => (String::from("ifok"), "end"),
            3 => (String::from("ifok"), "else stop end"),
            4 => (String::from("ifok stop else"), "end"),
            5 => (format!("select case recv {channel}"), "end"),
            _ => (String::from("select default"), "end"),
        };
        writer.say(&opened);
        closing.push(closed);
        if around + 1 == depth {
            write_operation(writer, true);
        }
    }
    for closed in closing.iter().rev() {
        writer.say(closed);
    }
}

/// A job of close to 1,024 rows: a small one, and a task of stops ahead of it
/// or behind it.
fn many_rows(random: &mut Random) -> Vec<String> {
    let channels = random.between(1, 3);
    let mut writer = Writer::new(random, channels);
    for _ in 0..3 {
        writer.task();
    }
    let small = writer.words;
    let rows = random.between(ROW_LIMIT - 3, ROW_LIMIT + 3);
    let stops = rows - rows_of(&small) - 1;
    let mut words = Vec::new();
    for _ in 0..channels {
        words.extend(["chan", "1"].map(String::from));
    }
    if random.chance(50) {
        words.extend(stop_task(stops));
        words.extend(small);
    } else {
        words.extend(small);
        words.extend(stop_task(stops));
    }
    if random.chance(25) {
        words.truncate(words.len() - random.index(6));
        words.push(any_word(random));
    }
    words
}

/// A ninth case close to the word that needs row 1,025.
fn cases_at_the_brim(random: &mut Random) -> Vec<String> {
    let before = ROW_LIMIT - 9 - random.below(4) + 1;
    let cases = random.between(8, 9);
    let mut words = stop_task(before - 1);
    let mut writer = Writer::new(random, 0);
    writer.say("task");
    write_cases(&mut writer, cases);
    writer.say("end");
    words.append(&mut writer.words);
    words
}

/// A seventh block close to the word that needs row 1,025.
fn blocks_at_the_brim(random: &mut Random) -> Vec<String> {
    let before = ROW_LIMIT - 6 - random.below(8) + 1;
    let depth = random.between(6, 7);
    let mut words = stop_task(before - 1);
    let mut writer = Writer::new(random, 0);
    writer.say("task");
    write_blocks(&mut writer, depth);
    writer.say("end");
    words.append(&mut writer.words);
    words
}

/// A task of one row more than it has stops.
fn stop_task(stops: u64) -> Vec<String> {
    let mut words = vec![String::from("task")];
    words.extend((0..stops).map(|_| String::from("stop")));
    words.push(String::from("end"));
    words
}

/// The rows of whole tasks: one for each statement word, case and task's end.
fn rows_of(words: &[String]) -> u64 {
    let needs_row = |index: &usize| {
        let behind_case = *index > 0 && words[index - 1] == "case";
        match words[*index].as_str() {
            "send" | "forward" | "recv" => !behind_case,
            "close" | "stop" | "range" | "repeat" | "ifok" | "select" => true,
            "case" | "task" => true,
            _ => false,
        }
    };
    (0..words.len()).filter(needs_row).count() as u64
}
