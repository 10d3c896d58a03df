//! Running a job (document 01, "Meaning of a text", "Channel rules" and turn
//! events): the words both interpreters answer with, and the two side by side.
//! `rows` makes turns on the image's rows, `nested` on the nested statements;
//! `Twin` makes every turn on both and panics where they differ.

mod nested;
pub mod rows;

use crate::image::{Image, Layout};
use crate::job::{Channel, Job};
use crate::numbers::{ChannelNumber, RowNumber, TaskNumber};

/// An event, or a refused turn.
pub type Turn = Result<Event, TurnRefusal>;

#[derive(Clone, Copy, Debug, PartialEq, Eq)]
pub enum Event {
    Appended(ChannelNumber, u16),
    Handed(ChannelNumber, u16, TaskNumber),
    Taken(ChannelNumber, u16, Option<TaskNumber>),
    TakenFromSender(ChannelNumber, u16, TaskNumber),
    TakenFromClosed(ChannelNumber),
    Closed(ChannelNumber, u16),
    NowWaiting,
    Branch,
    Ended,
    Faulted(Channel, Halt),
}

#[derive(Clone, Copy, Debug, PartialEq, Eq)]
pub enum TurnRefusal {
    Halted = 13,
    NoSuchTask = 14,
    Waiting = 15,
    Ended = 16,
}

#[derive(Clone, Copy, Debug, PartialEq, Eq)]
pub enum Fault {
    SendOnClosed = 1,
    CloseOfNil = 2,
    CloseOfClosed = 3,
    CloseOverSenders = 4,
}

impl Fault {
    /// The fault of a number; 0 is none.
    pub fn numbered(number: u8) -> Option<Fault> {
        let faults = [
            Fault::SendOnClosed,
            Fault::CloseOfNil,
            Fault::CloseOfClosed,
            Fault::CloseOverSenders,
        ];
        faults.into_iter().find(|fault| *fault as u8 == number)
    }
}

/// The halt record: the fault and the task named, the mover.
#[derive(Clone, Copy, Debug, PartialEq, Eq)]
pub struct Halt {
    pub fault: Fault,
    pub mover: TaskNumber,
}

#[derive(Clone, Copy, Debug, PartialEq, Eq)]
pub enum Status {
    Able = 0,
    Waiting = 1,
    Ended = 2,
}

/// All that can be seen of a machine; a task is at a word of the text.
#[derive(Debug, PartialEq, Eq)]
pub struct View {
    pub tasks: Vec<TaskView>,
    pub channels: Vec<ChannelView>,
    pub order: Vec<TaskNumber>,
    pub halt: Option<Halt>,
    pub stamp: u16,
}

#[derive(Debug, PartialEq, Eq)]
pub struct TaskView {
    pub status: Status,
    pub register: u16,
    pub ok: bool,
    pub word: usize,
}

#[derive(Debug, PartialEq, Eq)]
pub struct ChannelView {
    pub closed: bool,
    pub values: Vec<u16>,
}

/// Both interpreters of one job, turn for turn.
pub struct Twin<'j> {
    words: &'j [usize],
    rows: rows::Machine<'j>,
    nested: nested::Machine<'j>,
}

impl<'j> Twin<'j> {
    pub fn start(job: &'j Job, layout: &'j Layout<'j>, image: &'j Image<'j>) -> Twin<'j> {
        let twin = Twin {
            words: layout.words(),
            rows: rows::Machine::start(image),
            nested: nested::Machine::start(job),
        };
        twin.agreed_view();
        twin
    }

    pub fn turn(&mut self, asked: u8, choice: u8) -> Turn {
        let turn = self.rows.turn(asked, choice);
        let nested_turn = self.nested.turn(asked, choice);
        assert_eq!(turn, nested_turn, "rows and nested statements differ");
        self.agreed_view();
        turn
    }

    /// What both show.
    pub fn agreed_view(&self) -> View {
        let view = self.rows.view(self.words);
        assert_eq!(
            view,
            self.nested.view(),
            "rows and nested statements differ"
        );
        view
    }

    pub fn row(&self, task: TaskNumber) -> RowNumber {
        self.rows.row(task)
    }
}

/// Event number, channel, value and partner, as a listing has them.
pub fn columns(turn: Turn) -> [u16; 4] {
    match turn {
        Ok(event) => event.columns(),
        Err(refusal) => [refusal as u16, UNUSED, 0, UNUSED],
    }
}

const UNUSED: u16 = 255;

impl Event {
    fn columns(self) -> [u16; 4] {
        match self {
            Event::Appended(on, value) => [1, on.column(), value, UNUSED],
            Event::Handed(on, value, receiver) => [2, on.column(), value, receiver.column()],
            Event::Taken(on, value, refiller) => {
                let partner = refiller.map_or(UNUSED, TaskNumber::column);
                [3, on.column(), value, partner]
            }
            Event::TakenFromSender(on, value, sender) => [4, on.column(), value, sender.column()],
            Event::TakenFromClosed(on) => [5, on.column(), 0, UNUSED],
            Event::Closed(on, woken) => [6, on.column(), woken, UNUSED],
            Event::NowWaiting => [7, UNUSED, 0, UNUSED],
            Event::Branch => [8, UNUSED, 0, UNUSED],
            Event::Ended => [9, UNUSED, 0, UNUSED],
            Event::Faulted(on, halt) => {
                let channel = on.map_or(UNUSED, ChannelNumber::column);
                [10, channel, halt.fault as u16, halt.mover.column()]
            }
        }
    }
}

impl ChannelNumber {
    fn column(self) -> u16 {
        u16::from(self.0)
    }
}

impl TaskNumber {
    fn column(self) -> u16 {
        u16::from(self.0)
    }
}
