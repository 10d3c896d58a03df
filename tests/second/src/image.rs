//! The step image (document 01, "Step image"): the rows of 8 bytes and their
//! operation numbers, and an image opened from the end of its slice. `layout`
//! lays nested statements out as rows and writes them; `check` says whether a
//! slice holds an image.

mod check;
mod layout;

pub use layout::Layout;

use crate::job::{Channel, Job};
use crate::numbers::{ChannelNumber, Refusal, RowNumber, TaskNumber};

pub const SEND: u8 = 1;
pub const FORWARD: u8 = 2;
pub const RECV: u8 = 3;
pub const CLOSE: u8 = 4;
pub const RANGE: u8 = 5;
pub const REPEAT: u8 = 6;
pub const IFOK: u8 = 7;
pub const SELECT: u8 = 8;
pub const CASE_SEND: u8 = 9;
pub const CASE_FORWARD: u8 = 10;
pub const CASE_RECV: u8 = 11;
pub const STOP: u8 = 12;

const NIL: u8 = 255;
const ROW_BYTES: usize = 8;
const TRAILER_BYTES: usize = 8;
const MARK: u8 = 0x5A;
const VERSION: u8 = 1;
const ROW_LIMIT: usize = 1_024;
const CHANNEL_LIMIT: usize = 16;
const TASK_LIMIT: usize = 16;
const CASE_LIMIT: u8 = 8;
const DEPTH_LIMIT: u8 = 6;
const CAPACITY_LIMIT: u8 = 16;

/// Length of the longest image.
pub const IMAGE_LIMIT: usize =
    ROW_BYTES * ROW_LIMIT + CHANNEL_LIMIT + 2 * TASK_LIMIT + TRAILER_BYTES;

#[derive(Clone, Copy, Debug, PartialEq, Eq)]
pub struct Row {
    pub op: u8,
    pub chan: u8,
    pub arg: u16,
    pub next: RowNumber,
    pub other: RowNumber,
}

impl Row {
    /// A row of `op`, its other fields without use.
    fn new(op: u8) -> Row {
        Row {
            op,
            chan: 0,
            arg: 0,
            next: RowNumber(0),
            other: RowNumber(0),
        }
    }

    pub fn channel(self) -> Channel {
        (self.chan != NIL).then_some(ChannelNumber(self.chan))
    }

    fn is_case(self) -> bool {
        (CASE_SEND..=CASE_RECV).contains(&self.op)
    }

    fn to_bytes(self) -> [u8; ROW_BYTES] {
        let [arg_low, arg_high] = self.arg.to_le_bytes();
        let [next_low, next_high] = self.next.0.to_le_bytes();
        let [other_low, other_high] = self.other.0.to_le_bytes();
        [
            self.op, self.chan, arg_low, arg_high, next_low, next_high, other_low, other_high,
        ]
    }

    fn from_bytes(bytes: &[u8]) -> Row {
        Row {
            op: bytes[0],
            chan: bytes[1],
            arg: low_first(&bytes[2..]),
            next: RowNumber(low_first(&bytes[4..])),
            other: RowNumber(low_first(&bytes[6..])),
        }
    }
}

fn low_first(bytes: &[u8]) -> u16 {
    u16::from_le_bytes([bytes[0], bytes[1]])
}

/// The counts an image's trailer gives.
#[derive(Clone, Copy, Debug, PartialEq, Eq)]
struct Counts {
    rows: usize,
    channels: usize,
    tasks: usize,
}

impl Counts {
    /// Bytes from row 0 to the trailer.
    fn distance(self) -> usize {
        ROW_BYTES * self.rows + self.channels + 2 * self.tasks
    }
}

/// An image, from its row 0 to its trailer.
#[derive(Debug)]
pub struct Image<'s> {
    bytes: &'s [u8],
    counts: Counts,
}

impl<'s> Image<'s> {
    /// The image at the end of `slice`, or what the image check refuses.
    pub fn open(slice: &'s [u8]) -> Result<Image<'s>, Refusal> {
        let counts = check::trailer(slice)?;
        let first = slice.len() - TRAILER_BYTES - counts.distance();
        let image = Image {
            bytes: &slice[first..],
            counts,
        };
        check::contents(&image)?;
        Ok(image)
    }

    pub fn row(&self, row: RowNumber) -> Row {
        Row::from_bytes(&self.bytes[ROW_BYTES * row.index()..])
    }

    /// The row `steps` behind `row`.
    pub fn row_behind(&self, row: RowNumber, steps: u8) -> Row {
        self.row(RowNumber(row.0 + u16::from(steps)))
    }

    /// How many rows there are.
    pub fn rows(&self) -> usize {
        self.counts.rows
    }

    /// Whether `target` is a row, and no case row.
    pub fn is_target(&self, target: RowNumber) -> bool {
        target.index() < self.counts.rows && !self.row(target).is_case()
    }

    pub fn channels(&self) -> impl Iterator<Item = ChannelNumber> {
        (0..self.counts.channels as u8).map(ChannelNumber)
    }

    pub fn tasks(&self) -> impl Iterator<Item = TaskNumber> {
        (0..self.counts.tasks as u8).map(TaskNumber)
    }

    pub fn capacity(&self, channel: ChannelNumber) -> u8 {
        self.bytes[ROW_BYTES * self.counts.rows + channel.index()]
    }

    pub fn first_row(&self, task: TaskNumber) -> RowNumber {
        let at = ROW_BYTES * self.counts.rows + self.counts.channels + 2 * task.index();
        RowNumber(low_first(&self.bytes[at..]))
    }
}

/// The image of a job.
pub fn image_of(job: &Job) -> Vec<u8> {
    let mut buffer = vec![0; IMAGE_LIMIT];
    let length = Layout::of(job)
        .write(&mut buffer)
        .expect("an image fits its limit");
    buffer.truncate(length);
    buffer
}
