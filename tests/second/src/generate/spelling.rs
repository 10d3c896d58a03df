//! Spelling: the words of a job and the numbers of a schedule as the bytes of
//! an input, with one or more blanks and newlines between them.

use super::Random;

/// An input as words, before it is spelled.
pub struct Draft {
    pub words: Vec<String>,
    pub schedule: Vec<String>,
}

/// An input as the bytes of its three parts.
pub struct Spelled {
    pub text: Vec<u8>,
    pub run_line: Vec<u8>,
    pub schedule: Vec<u8>,
}

#[derive(Clone, Copy)]
enum Gaps {
    /// One blank, everywhere.
    Blanks,
    /// A line for each declaration and task.
    Lines,
    /// Runs of blanks and newlines.
    Wild,
}

pub fn spell(random: &mut Random, draft: &Draft) -> Spelled {
    let gaps = random.pick(&[Gaps::Blanks, Gaps::Lines, Gaps::Wild]);
    let mut text = spell_words(random, &draft.words, gaps);
    text.push(b'\n');
    let mut schedule = spell_words(random, &draft.schedule, gaps);
    if random.chance(90) {
        schedule.push(b'\n');
    }
    Spelled {
        text,
        run_line: b"run\n".to_vec(),
        schedule,
    }
}

impl Spelled {
    pub fn join(self) -> Vec<u8> {
        [self.text, self.run_line, self.schedule].concat()
    }
}

fn spell_words(random: &mut Random, words: &[String], gaps: Gaps) -> Vec<u8> {
    let mut spelled = Vec::new();
    if let Gaps::Wild = gaps {
        push_wild_gap(random, &mut spelled, 0);
    }
    for (index, word) in words.iter().enumerate() {
        if index > 0 {
            push_gap(random, &mut spelled, word, gaps);
        }
        spelled.extend(word.bytes());
    }
    if let Gaps::Wild = gaps {
        push_wild_gap(random, &mut spelled, 0);
    }
    spelled
}

fn push_gap(random: &mut Random, spelled: &mut Vec<u8>, word: &str, gaps: Gaps) {
    match gaps {
        Gaps::Blanks => spelled.push(b' '),
        Gaps::Lines if word == "chan" || word == "task" => spelled.push(b'\n'),
        Gaps::Lines => spelled.push(b' '),
        Gaps::Wild => push_wild_gap(random, spelled, 1),
    }
}

fn push_wild_gap(random: &mut Random, spelled: &mut Vec<u8>, least: u64) {
    for _ in 0..random.between(least, 2) {
        spelled.push(random.pick(b"  \n"));
    }
}
