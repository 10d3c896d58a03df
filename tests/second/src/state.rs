//! A machine's state apart from its image: its numbers as they are stored
//! (document 02, E2's record without the trailer), and whether it fits an image
//! (document 01, "What comes back").

use crate::image::{Image, FORWARD, RANGE, RECV, SELECT, SEND};
use crate::machine::Status;
use crate::numbers::{ChannelNumber, RowNumber, TaskNumber};

const TASK_LIMIT: usize = 16;
const CHANNEL_LIMIT: usize = 16;
const VALUE_LIMIT: usize = 16;
const TASK_BYTES: usize = 12;
const CHANNEL_BYTES: usize = 34;
const LAST_FAULT: u8 = 4;

/// A state, of as many tasks and channels as it lists. Its order, tasks,
/// channels or values may be more than there is room for: no such state fits.
#[derive(Clone, Debug, PartialEq, Eq)]
pub struct State {
    pub fault: u8,
    pub named: u8,
    pub stamp: u16,
    /// The waiting order, longest first.
    pub order: Vec<u8>,
    pub tasks: Vec<TaskState>,
    pub channels: Vec<ChannelState>,
}

#[derive(Clone, Debug, PartialEq, Eq)]
pub struct TaskState {
    pub status: Status,
    pub ok: bool,
    pub register: u16,
    pub row: u16,
    pub laps: [u8; 6],
}

#[derive(Clone, Debug, PartialEq, Eq)]
pub struct ChannelState {
    pub closed: bool,
    pub values: Vec<u16>,
}

impl State {
    /// The stored form, low byte first: fault, task named, stamp, waiting
    /// count and order, the tasks, the channels; 0 where nothing is, and what
    /// has no room left out.
    pub fn to_bytes(&self) -> Vec<u8> {
        let mut bytes = vec![self.fault, self.named];
        bytes.extend(self.stamp.to_le_bytes());
        bytes.push(count(self.order.len()));
        bytes.extend(room(self.order.clone(), TASK_LIMIT));
        let tasks = self.tasks.iter().flat_map(TaskState::to_bytes).collect();
        bytes.extend(room(tasks, TASK_LIMIT * TASK_BYTES));
        let channels = self.channels.iter().flat_map(ChannelState::to_bytes);
        bytes.extend(room(channels.collect(), CHANNEL_LIMIT * CHANNEL_BYTES));
        bytes
    }

    pub fn fits(&self, image: &Image) -> bool {
        self.tasks.len() == image.tasks().count()
            && self.channels.len() == image.channels().count()
            && self
                .tasks
                .iter()
                .all(|task| image.is_target(RowNumber(task.row)))
            && image
                .channels()
                .all(|channel| self.length_holds(image, channel))
            && self.fault <= LAST_FAULT
            && self.order_holds(image)
    }

    fn length_holds(&self, image: &Image, channel: ChannelNumber) -> bool {
        self.channels[channel.index()].values.len() <= usize::from(image.capacity(channel))
    }

    /// Whether the order names exactly the waiting tasks, once each, every one
    /// at an operation that can wait.
    fn order_holds(&self, image: &Image) -> bool {
        let times = |task: TaskNumber| self.order.iter().filter(|name| **name == task.0).count();
        let named_as_due = |task: TaskNumber| {
            let state = &self.tasks[task.index()];
            match state.status {
                Status::Waiting => times(task) == 1 && can_wait(image, RowNumber(state.row)),
                _ => times(task) == 0,
            }
        };
        image.tasks().all(named_as_due)
            && self
                .order
                .iter()
                .all(|name| usize::from(*name) < self.tasks.len())
    }
}

impl TaskState {
    fn to_bytes(&self) -> Vec<u8> {
        let mut bytes = vec![self.status as u8, u8::from(self.ok)];
        bytes.extend(self.register.to_le_bytes());
        bytes.extend(self.row.to_le_bytes());
        bytes.extend(self.laps);
        bytes
    }
}

impl ChannelState {
    fn to_bytes(&self) -> Vec<u8> {
        let mut bytes = vec![u8::from(self.closed), count(self.values.len())];
        let values = self.values.iter().flat_map(|value| value.to_le_bytes());
        bytes.extend(room(values.collect(), 2 * VALUE_LIMIT));
        bytes
    }
}

/// A count as it is stored.
fn count(length: usize) -> u8 {
    length.try_into().expect("a count of one byte")
}

fn room(mut bytes: Vec<u8>, length: usize) -> Vec<u8> {
    bytes.resize(length, 0);
    bytes
}

/// A select with a default takes that, and never waits.
fn can_wait(image: &Image, number: RowNumber) -> bool {
    let row = image.row(number);
    match row.op {
        SEND | FORWARD | RECV | RANGE => true,
        SELECT => row.arg == 0,
        _ => false,
    }
}

#[cfg(test)]
mod tests {
    use super::*;

    fn task(status: Status, row: u16) -> TaskState {
        TaskState {
            status,
            ok: false,
            register: 0,
            row,
            laps: [0; 6],
        }
    }

    #[test]
    fn the_stored_form() {
        let mut waiting = task(Status::Waiting, 0x0102);
        waiting.ok = true;
        waiting.register = 0x0304;
        waiting.laps = [11, 12, 13, 14, 15, 16];
        let state = State {
            fault: 3,
            named: 1,
            stamp: 0x0506,
            order: vec![1],
            tasks: vec![task(Status::Ended, 0), waiting],
            channels: vec![
                ChannelState {
                    closed: true,
                    values: vec![],
                },
                ChannelState {
                    closed: false,
                    values: vec![0x0708, 9],
                },
            ],
        };
        let bytes = state.to_bytes();
        assert_eq!(bytes.len(), 757);
        assert_eq!(bytes[..7], [3, 1, 6, 5, 1, 1, 0]);
        assert_eq!(bytes[21..33], [2, 0, 0, 0, 0, 0, 0, 0, 0, 0, 0, 0]);
        assert_eq!(bytes[33..45], [1, 1, 4, 3, 2, 1, 11, 12, 13, 14, 15, 16]);
        assert_eq!(bytes[213..216], [1, 0, 0]);
        assert_eq!(bytes[247..254], [0, 2, 8, 7, 9, 0, 0]);
        let told: usize = bytes.iter().filter(|byte| **byte != 0).count();
        assert_eq!(told, 6 + 1 + 12 + 1 + 4);
    }
}
