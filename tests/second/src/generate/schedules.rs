//! Calls of a schedule: images of drawn jobs, some with bytes ahead of them,
//! some damaged; a start, a state that turns led to, or a state changed so that
//! it may not fit; pairs, some odd in number; records slices too short, exact
//! and too long.

use super::{jobs, limits, Random};
use crate::image::{image_of, Image, CASE_RECV, CASE_SEND, STOP};
use crate::job::Job;
use crate::machine::{rows, Status};
use crate::schedule::Call;
use crate::state::State;
use crate::text;

const ROW_BYTES: usize = 8;
const TRAILER_BYTES: usize = 8;
const PAIR_LIMIT: usize = 400;

pub fn call(seed: u64, index: u64) -> Call {
    let random = &mut Random::for_input(seed, index);
    let (job, pairs) = job(random);
    let good = image_of(&job);
    let (state, pairs) = origin(random, &good, pairs);
    let mut call = Call {
        image: image(random, good),
        state,
        pairs,
        records: Vec::new(),
    };
    if random.chance(8) {
        call.pairs.push(random.pick(&[0, 1, 255]));
    }
    call.records = records(random, call.length_needed());
    call
}

/// A job and the bytes of a schedule for it.
fn job(random: &mut Random) -> (Job, Vec<u8>) {
    loop {
        let draft = match random.chance(6) {
            true => limits::draft(random),
            false => jobs::draft(random),
        };
        if let Ok(job) = text::read(draft.words.join(" ").as_bytes()) {
            let numbers = draft.schedule.iter().take(2 * PAIR_LIMIT);
            let pairs = numbers.map(|number| number.parse().expect("a byte"));
            return (job, pairs.collect());
        }
    }
}

/// Where the machine comes from, and the pairs that are left to run.
fn origin(random: &mut Random, image: &[u8], pairs: Vec<u8>) -> (Option<State>, Vec<u8>) {
    if random.chance(40) {
        return (None, pairs);
    }
    let image = Image::open(image).expect("a written image passes the check");
    let mut machine = rows::Machine::start(&image);
    let (made, left) = pairs.split_at(2 * random.index(pairs.len() / 2 + 1));
    for pair in made.chunks_exact(2) {
        // What the turn says counts only in a call.
        let _ = machine.turn(pair[0], pair[1]);
    }
    let mut state = machine.state();
    if random.chance(30) {
        state.stamp = u16::MAX - random.below(40) as u16;
    }
    for _ in 0..random.weighted(&[45, 40, 15]) {
        change(random, &image, &mut state);
    }
    (Some(state), left.to_vec())
}

/// Changes one thing; the state may fit afterwards or not.
fn change(random: &mut Random, image: &Image, state: &mut State) {
    let at = random.index(state.tasks.len());
    match random.below(9) {
        0 => halt(random, state),
        1 => state.tasks[at].row = any_row(random, image),
        2 => state.tasks[at].status = random.pick(&[Status::Able, Status::Waiting, Status::Ended]),
        3 => change_order(random, state),
        4 => wait(random, image, state, at),
        5 => fill(random, state),
        6 => change_counts(random, state),
        7 => {
            let depth = random.index(6);
            state.tasks[at].laps[depth] = random.pick(&[0, 1, 2, 254, 255]);
        }
        _ => {
            state.tasks[at].register = random.below(65_536) as u16;
            state.tasks[at].ok = random.chance(50);
        }
    }
}

fn halt(random: &mut Random, state: &mut State) {
    state.fault = random.pick(&[1, 2, 3, 4, 5, 6, 255]);
    state.named = random.below(256) as u8;
}

/// A row or case row, or a number past them all.
fn any_row(random: &mut Random, image: &Image) -> u16 {
    match random.weighted(&[80, 15, 5]) {
        0 => random.index(image.rows()) as u16,
        1 => image.rows() as u16,
        _ => u16::MAX,
    }
}

/// Names one task fewer, one more or another, turns the order round, or makes
/// it longer than any.
fn change_order(random: &mut Random, state: &mut State) {
    let name = random.pick(&[0, 1, state.tasks.len() as u8, 16, 255]);
    let last = state.order.len().saturating_sub(1);
    match random.below(5) {
        0 => {
            state.order.pop();
        }
        1 => state.order.push(name),
        2 if !state.order.is_empty() => state.order[last] = name,
        3 => state.order.reverse(),
        _ => state.order.resize(random.pick(&[17, 200]), name),
    }
}

/// Has an able task wait at a row of its choice, in its place in the order.
fn wait(random: &mut Random, image: &Image, state: &mut State, at: usize) {
    if state.tasks[at].status == Status::Able {
        state.tasks[at].status = Status::Waiting;
        state.tasks[at].row = any_row(random, image);
        let place = random.index(state.order.len() + 1);
        state.order.insert(place, at as u8);
    }
}

/// Other values in a channel, which may be more than it holds.
fn fill(random: &mut Random, state: &mut State) {
    if state.channels.is_empty() {
        return;
    }
    let at = random.index(state.channels.len());
    let length = random.pick(&[0, 1, 2, 3, 16, 17, 255]);
    let channel = &mut state.channels[at];
    channel.values = (0..length).map(|_| random.below(65_536) as u16).collect();
    channel.closed = random.chance(30);
}

/// A task or a channel more, or one fewer.
fn change_counts(random: &mut Random, state: &mut State) {
    let (tasks, channels) = (state.tasks.len(), state.channels.len());
    match random.below(4) {
        0 => state.tasks.push(state.tasks[tasks - 1].clone()),
        1 if tasks > 1 => state.tasks.truncate(tasks - 1),
        2 if channels > 0 => state.channels.push(state.channels[0].clone()),
        _ => state.channels.truncate(channels.saturating_sub(1)),
    }
}

/// The image as the call has it: bytes ahead of row 0 are not read.
fn image(random: &mut Random, mut image: Vec<u8>) -> Vec<u8> {
    if random.chance(25) {
        damage(random, &mut image);
    }
    if random.chance(20) {
        let ahead: Vec<u8> = (0..random.between(1, 20))
            .map(|_| random.below(256) as u8)
            .collect();
        image.splice(..0, ahead);
    }
    image
}

/// Changes a good image in one of the ways that the check looks for, at times
/// to what is good as well.
fn damage(random: &mut Random, image: &mut Vec<u8>) {
    let trailer = image.len() - TRAILER_BYTES;
    let rows = usize::from(u16::from_le_bytes([image[trailer], image[trailer + 1]]));
    let capacities = ROW_BYTES * rows;
    let first_rows = capacities + usize::from(image[trailer + 2]);
    let any = random.below(256) as u8;
    match random.below(9) {
        0 => drop(image.drain(..image.len() - random.index(TRAILER_BYTES))),
        1 => drop(image.drain(..random.between(1, 9) as usize)),
        2 => image[trailer + 6] = any,
        3 => image[trailer + 7] = any,
        4 => image[trailer + random.index(6)] = any,
        5 => damage_row(random, &mut image[..capacities]),
        6 => image[random.index(trailer)] = any,
        7 if capacities < first_rows => {
            image[capacities + random.index(first_rows - capacities)] = random.pick(&[16, 17, 255]);
        }
        _ => {
            let at = first_rows + random.index(trailer - first_rows);
            image[at] = random.pick(&[0, 1, 2, 3, 255]);
        }
    }
}

/// A field of a row: its operation, channel or one of the others.
fn damage_row(random: &mut Random, rows: &mut [u8]) {
    let row = ROW_BYTES * random.index(rows.len() / ROW_BYTES);
    let (field, byte) = match random.below(4) {
        0 => (0, random.below(u64::from(STOP) + 2) as u8),
        1 => (0, random.pick(&[CASE_SEND, CASE_RECV])),
        2 => (1, random.pick(&[0, 1, 5, 6, 8, 9, 16, 254, 255])),
        _ => (2 + random.index(6), random.pick(&[0, 1, 2, 255])),
    };
    rows[row + field] = byte;
}

/// A slice full of one byte, or of any.
fn records(random: &mut Random, needed: usize) -> Vec<u8> {
    let length = match random.weighted(&[45, 25, 20, 10]) {
        0 => needed,
        1 => needed + random.between(1, 13) as usize,
        2 => random.index(needed + 1),
        _ => needed.saturating_sub(random.index(7)),
    };
    if random.chance(80) {
        return vec![0xEE; length];
    }
    (0..length).map(|_| random.below(256) as u8).collect()
}

#[cfg(test)]
mod tests {
    use super::*;

    #[test]
    fn every_answer_and_event_occurs() {
        let mut answers = vec![];
        let mut events = vec![];
        for index in 0..4_000 {
            let left = call(1, index).make();
            match left.answer {
                Err(refusal) => answers.push(refusal.number),
                Ok(length) => {
                    answers.push(0);
                    events.extend(
                        left.records[..length]
                            .chunks_exact(6)
                            .map(|record| record[0]),
                    );
                }
            }
        }
        answers.sort_unstable();
        answers.dedup();
        assert_eq!(answers, [0, 17, 21, 22, 23, 24, 25, 26, 27, 28, 30, 31]);
        events.sort_unstable();
        events.dedup();
        assert_eq!(events, [1, 2, 3, 4, 5, 6, 7, 8, 9, 10, 13, 14, 15, 16]);
    }

    #[test]
    fn the_same_seed_gives_the_same_calls() {
        for index in 0..100 {
            assert_eq!(call(5, index).make(), call(5, index).make());
        }
    }
}
