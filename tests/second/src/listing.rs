//! The listing program (document 01, "A listing, whole"): bytes of standard
//! input to what is printed. The image is written, checked and opened as any
//! image is, and both interpreters run it side by side.

use crate::image::{Image, Layout, IMAGE_LIMIT};
use crate::job::Job;
use crate::machine::{columns, Twin};
use crate::numbers::TaskNumber;
use crate::text;

pub const INPUT_LIMIT: usize = 48_000;

/// Task and choice.
type Pair = (u8, u8);

pub fn list(input: &[u8]) -> String {
    if input.len() > INPUT_LIMIT {
        return String::from("input too long\n");
    }
    let (job_text, schedule) = split(input);
    match text::read(job_text) {
        Err(refusal) => format!("refused {} {}\n", refusal.number, refusal.place),
        Ok(job) => match pairs(schedule) {
            None => String::from("bad schedule\n"),
            Some(pairs) => run(&job, &pairs),
        },
    }
}

/// The job text ahead of the first line `run`, and the schedule behind it.
fn split(input: &[u8]) -> (&[u8], &[u8]) {
    let mut start = 0;
    for line in input.split(|byte| *byte == b'\n') {
        let behind = start + line.len() + 1;
        if line == b"run" {
            return (&input[..start], &input[behind.min(input.len())..]);
        }
        start = behind;
    }
    (input, &[])
}

fn pairs(schedule: &[u8]) -> Option<Vec<Pair>> {
    let words = schedule.split(|byte| text::is_gap(*byte));
    let words = words.filter(|word| !word.is_empty());
    let numbers: Vec<u8> = words.map(schedule_number).collect::<Option<_>>()?;
    let pairs = numbers.chunks_exact(2);
    let is_odd = !pairs.remainder().is_empty();
    (!is_odd).then(|| pairs.map(|pair| (pair[0], pair[1])).collect())
}

fn schedule_number(word: &[u8]) -> Option<u8> {
    u8::try_from(text::number(word)?).ok()
}

fn run(job: &Job, pairs: &[Pair]) -> String {
    let layout = Layout::of(job);
    let mut buffer = [0; IMAGE_LIMIT];
    let length = layout.write(&mut buffer).expect("an image fits its limit");
    let image = Image::open(&buffer[..length]).expect("a written image passes the check");
    let mut twin = Twin::start(job, &layout, &image);
    let mut lines = turn_lines(&mut twin, pairs);
    lines.extend(state_lines(&twin));
    lines.iter().map(|line| format!("{line}\n")).collect()
}

fn turn_lines(twin: &mut Twin, pairs: &[Pair]) -> Vec<String> {
    let turns = pairs.iter().enumerate().map(|(number, (task, choice))| {
        let [event, channel, value, partner] = columns(twin.turn(*task, *choice));
        format!("{number} {task} {event} {channel} {value} {partner}")
    });
    turns.collect()
}

fn state_lines(twin: &Twin) -> Vec<String> {
    let view = twin.agreed_view();
    let mut lines = Vec::new();
    for (number, task) in view.tasks.iter().enumerate() {
        let status = task.status as u8;
        let ok = u8::from(task.ok);
        let row = twin.row(TaskNumber(number as u8)).0;
        lines.push(format!(
            "task {number} {status} {} {ok} {row}",
            task.register
        ));
    }
    for (number, channel) in view.channels.iter().enumerate() {
        let closed = u8::from(channel.closed);
        let values: String = channel
            .values
            .iter()
            .map(|value| format!(" {value}"))
            .collect();
        let length = channel.values.len();
        lines.push(format!("chan {number} {closed} {length}{values}"));
    }
    let fault = view.halt.map_or(0, |halt| halt.fault as u8);
    lines.push(format!("stamp {} {fault}", view.stamp));
    lines
}

#[cfg(test)]
mod tests {
    use super::*;

    #[test]
    fn the_listing_of_the_document() {
        let input = "chan 1\ntask send 0 7 send 0 9 close 0 end\ntask range 0 end end\nrun\n\
                     0 0 0 0 0 0 1 0 0 0 1 0 1 0 1 0 0 0\n";
        let output = "0 0 1 0 7 255\n1 0 7 255 0 255\n2 0 15 255 0 255\n3 1 3 0 7 0\n\
                      4 0 6 0 0 255\n5 1 3 0 9 255\n6 1 5 0 0 255\n7 1 9 255 0 255\n\
                      8 0 9 255 0 255\ntask 0 2 0 0 3\ntask 1 2 0 0 5\nchan 0 1 0\nstamp 8 0\n";
        assert_eq!(list(input.as_bytes()), output);
    }

    #[test]
    fn the_line_run() {
        let still = "task 0 0 0 0 0\nstamp 0 0\n";
        assert_eq!(list(b"task end"), still);
        assert_eq!(list(b"task end\nrun"), still);
        assert_eq!(list(b"task end\nrun\n"), still);
        assert_eq!(list(b"run\n0 0"), "refused 10 0\n");
        assert_eq!(list(b"task end\nrun \n"), "refused 3 9\n");
        assert_eq!(list(b"task end\nrun\nrun\n"), "bad schedule\n");
    }

    #[test]
    fn schedules() {
        assert_eq!(pairs(b" 0 255\n\n1 0"), Some(vec![(0, 255), (1, 0)]));
        assert_eq!(pairs(b" \n"), Some(vec![]));
        for bad in ["0", "0 256", "0 00", "0 zero", "0\t0", "0 0 99999999999"] {
            assert_eq!(pairs(bad.as_bytes()), None, "{bad}");
        }
    }

    #[test]
    fn input_length() {
        let mut input = b"task end\nrun\n".to_vec();
        input.resize(INPUT_LIMIT, b' ');
        assert_eq!(list(&input), "task 0 0 0 0 0\nstamp 0 0\n");
        input.push(b' ');
        assert_eq!(list(&input), "input too long\n");
    }
}
