//! Valid jobs with schedules. Channels and tasks are few, so that tasks meet.
//! A job has a mood: its bodies take statements as they come, play parts
//! (producer, relay, merger, ...) that another task answers, keep going in
//! loops around selects, or close channels under each other.

use super::{Draft, Random};

/// A valid job and a schedule for it.
pub fn draft(random: &mut Random) -> Draft {
    let channels = random.weighted(&[3, 35, 35, 20, 7]) as u64;
    let tasks = 1 + random.weighted(&[8, 30, 32, 20, 10]) as u64;
    let words = job(random, channels, tasks);
    draft_of(random, words)
}

/// The draft of a job's words, with a schedule for its tasks.
pub fn draft_of(random: &mut Random, words: Vec<String>) -> Draft {
    let tasks = words.iter().filter(|word| *word == "task").count() as u64;
    let schedule = schedule(random, tasks);
    Draft { words, schedule }
}

pub fn job(random: &mut Random, channels: u64, tasks: u64) -> Vec<String> {
    let mut writer = Writer::new(random, channels);
    for _ in 0..channels {
        let capacity = writer.capacity();
        writer.say(&format!("chan {capacity}"));
    }
    for _ in 0..tasks {
        writer.task();
    }
    writer.words
}

#[derive(Clone, Copy)]
enum Mood {
    Random,
    Parts,
    Lively,
    Closing,
}

/// Writes the words of a job, with habits of its own for each job.
pub struct Writer<'r> {
    pub random: &'r mut Random,
    pub words: Vec<String>,
    mood: Mood,
    channels: u64,
    /// How many blocks deep its bodies may go.
    deepest: u64,
    /// How often it closes, against 44 for a send, forward or recv.
    closes: u64,
    /// How often it writes nil, in percent.
    nils: u64,
    /// How many statements it may still write.
    statements: u64,
}

impl<'r> Writer<'r> {
    pub fn new(random: &'r mut Random, channels: u64) -> Writer<'r> {
        let moods = [Mood::Random, Mood::Parts, Mood::Lively, Mood::Closing];
        let mood = moods[random.weighted(&[22, 22, 34, 22])];
        let deepest = random.pick(&[1, 2, 2, 3, 3, 6]);
        let closes = random.pick(&[0, 1, 2, 5, 9]);
        let nils = random.pick(&[0, 0, 1, 2, 8]);
        Writer {
            random,
            words: Vec::new(),
            mood,
            channels,
            deepest,
            closes,
            nils,
            statements: 90,
        }
    }

    pub fn say(&mut self, words: &str) {
        self.words.extend(words.split(' ').map(String::from));
    }

    fn capacity(&mut self) -> u64 {
        match self.random.weighted(&[40, 30, 18, 10, 2]) {
            3 => self.random.between(3, 15),
            4 => 16,
            small => small as u64,
        }
    }

    pub fn channel(&mut self) -> String {
        if self.channels == 0 || self.random.chance(self.nils) {
            return String::from("nil");
        }
        self.random.below(self.channels).to_string()
    }

    fn value(&mut self) -> u64 {
        match self.random.weighted(&[85, 3, 12]) {
            0 => self.random.below(20),
            1 => 65_535,
            _ => self.random.below(65_536),
        }
    }

    fn laps(&mut self) -> u64 {
        match self.random.weighted(&[90, 2, 8]) {
            0 => self.random.below(5),
            1 => 255,
            _ => self.random.below(256),
        }
    }

    pub fn task(&mut self) {
        self.say("task");
        match self.mood {
            Mood::Random => self.body(0, 6),
            Mood::Parts => {
                self.part();
                self.body(0, 2);
            }
            Mood::Lively => {
                self.lively_loop();
                self.body(0, 2);
            }
            Mood::Closing => {
                self.closing_part();
                if self.random.chance(50) {
                    self.closing_part();
                }
            }
        }
        self.say("end");
    }

    /// Up to `longest` statements inside `depth` blocks.
    fn body(&mut self, depth: u64, longest: u64) {
        for _ in 0..self.random.between(0, longest) {
            if self.statements > 0 {
                self.statements -= 1;
                self.statement(depth);
            }
        }
    }

    fn statement(&mut self, depth: u64) {
        let block = u64::from(depth < self.deepest);
        let blocks = [7 * block, 9 * block, 9 * block, 16 * block];
        let weights = [
            44,
            self.closes,
            1,
            blocks[0],
            blocks[1],
            blocks[2],
            blocks[3],
        ];
        match self.random.weighted(&weights) {
            0 => self.operation(),
            1 => {
                let channel = self.channel();
                self.say(&format!("close {channel}"));
            }
            2 => self.say("stop"),
            3 => self.range(depth),
            4 => self.repeat(depth),
            5 => self.ifok(depth),
            _ => self.select(depth),
        }
    }

    pub fn operation(&mut self) {
        let channel = self.channel();
        match self.random.weighted(&[20, 6, 20]) {
            0 => {
                let value = self.value();
                self.say(&format!("send {channel} {value}"));
            }
            1 => self.say(&format!("forward {channel}")),
            _ => self.say(&format!("recv {channel}")),
        }
    }

    fn range(&mut self, depth: u64) {
        let channel = self.channel();
        self.say(&format!("range {channel}"));
        self.body(depth + 1, 2);
        self.say("end");
    }

    fn repeat(&mut self, depth: u64) {
        let laps = self.laps();
        self.say(&format!("repeat {laps}"));
        self.body(depth + 1, 3);
        self.say("end");
    }

    fn ifok(&mut self, depth: u64) {
        self.say("ifok");
        self.body(depth + 1, 2);
        if self.random.chance(60) {
            self.say("else");
            self.body(depth + 1, 2);
        }
        self.say("end");
    }

    fn select(&mut self, depth: u64) {
        self.say("select");
        for _ in 0..self.random.weighted(&[3, 15, 30, 25, 14, 6, 3, 2, 2]) {
            self.say("case");
            self.operation();
            self.body(depth + 1, 2);
        }
        if self.random.chance(30) {
            self.say("default");
            self.body(depth + 1, 2);
        }
        self.say("end");
    }

    /// A loop of many laps that seldom waits for ever.
    fn lively_loop(&mut self) {
        let laps = self.random.between(3, 40);
        self.say(&format!("repeat {laps}"));
        if self.random.chance(75) {
            self.lively_select();
        } else {
            self.operation();
        }
        self.say("end");
    }

    /// A select that both sends and receives, most of its bodies empty.
    fn lively_select(&mut self) {
        let (a, b, value) = (self.channel(), self.channel(), self.value());
        let mut sure = [format!("send {a} {value}"), format!("recv {b}")];
        if self.random.chance(50) {
            sure.reverse();
        }
        self.say("select");
        for operation in sure {
            self.say(&format!("case {operation}"));
            self.short_body();
        }
        for _ in 0..self.random.weighted(&[30, 30, 20, 10, 4, 3, 3]) {
            self.say("case");
            self.operation();
            self.short_body();
        }
        if self.random.chance(8) {
            self.say("default");
        }
        self.say("end");
    }

    fn short_body(&mut self) {
        if self.random.chance(25) {
            self.body(2, 1);
        }
    }

    /// A part in a job whose channels get closed.
    fn closing_part(&mut self) {
        let (a, b, c) = (self.channel(), self.channel(), self.channel());
        let value = self.value();
        let part = match self.random.below(12) {
            0 => format!("close {a} recv {a}"),
            1 => format!("close {a} range {b} end"),
            2 => format!("send {a} {value} close {a}"),
            3 => format!("range {a} end close {b}"),
            4 => format!("repeat 5 recv {a} ifok else stop end end"),
            5 => format!("select case recv {a} ifok close {b} end case recv {b} close {a} end"),
            6 => format!("recv {a} close nil"),
            7 => format!("close {a} close {a}"),
            8 => format!("send {a} {value} send {a} {value} close {b}"),
            9 => format!("repeat 3 select case recv {a} case recv {b} case send {c} 1 end end"),
            10 => format!("recv {a} close {b}"),
            _ => format!("close {a} select case send {a} 1 case recv {a} case recv {b} end"),
        };
        self.say(&part);
    }

    /// A part that tasks of one job play together.
    fn part(&mut self) {
        let (a, b, c) = (self.channel(), self.channel(), self.channel());
        let (laps, value) = (self.laps(), self.value());
        let part = match self.random.below(9) {
            0 => format!("repeat {laps} send {a} {value} end"),
            1 => format!("repeat {laps} send {a} {value} end close {a}"),
            2 => format!("range {a} forward {b} end"),
            3 => format!("range {a} forward {b} end close {b}"),
            4 => format!("repeat {laps} send {a} {value} recv {b} end"),
            5 => format!(
                "repeat {laps} select case recv {a} forward {c} case recv {b} forward {c} end end"
            ),
            6 => format!(
                "repeat {laps} select case recv {a} ifok forward {b} else stop end default end end"
            ),
            7 => format!("repeat {laps} select case send {a} {value} case recv {a} end end"),
            _ => format!("repeat {laps} recv {a} select case forward {b} case forward {c} end end"),
        };
        self.say(&part);
    }
}

/// Pairs of task and choice, the task mostly one of `tasks`.
fn schedule(random: &mut Random, tasks: u64) -> Vec<String> {
    let pairs = match random.weighted(&[4, 70, 24, 2]) {
        0 => 0,
        1 => random.between(1, 60),
        2 => random.between(60, 200),
        _ => random.between(200, 1_000),
    };
    let strangers = random.pick(&[0, 0, 2, 6]);
    let burst = random.pick(&[0, 40, 80]);
    let mut numbers = Vec::new();
    let mut task = random.below(tasks.max(1));
    for _ in 0..pairs {
        if !random.chance(burst) {
            task = random.below(tasks.max(1));
        }
        let asked = match random.chance(strangers) {
            true => random.pick(&[tasks, tasks + 1, 15, 16, 255]),
            false => task,
        };
        let choice = match random.chance(60) {
            true => random.below(4),
            false => random.below(256),
        };
        numbers.extend([asked.to_string(), choice.to_string()]);
    }
    numbers
}
