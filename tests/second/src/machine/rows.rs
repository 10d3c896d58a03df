//! The machine on the image's rows: each task has a row and six lap counts.
//! The channel rules stand here one by one, as document 01 lists them.

use std::collections::VecDeque;

use super::{ChannelView, Event, Fault, Halt, Status, TaskView, Turn, TurnRefusal, View};
use crate::image::{
    Image, Row, CASE_FORWARD, CASE_RECV, CASE_SEND, CLOSE, FORWARD, IFOK, RANGE, RECV, REPEAT,
    SELECT, SEND,
};
use crate::job::Channel;
use crate::numbers::{ChannelNumber, RowNumber, TaskNumber};
use crate::state::{self, State};

pub struct Machine<'i> {
    image: &'i Image<'i>,
    tasks: Vec<TaskState>,
    channels: Vec<ChannelState>,
    /// The waiting order, longest first.
    order: Vec<TaskNumber>,
    halt: Option<Halt>,
    stamp: u16,
}

struct TaskState {
    row: RowNumber,
    laps: [u8; 6],
    register: u16,
    ok: bool,
    ended: bool,
}

struct ChannelState {
    capacity: usize,
    closed: bool,
    buffer: VecDeque<u16>,
}

#[derive(Clone, Copy, PartialEq, Eq)]
enum Side {
    Send,
    Receive,
}

/// A waiting task and the row, its own or a case row, that it would finish.
#[derive(Clone, Copy)]
struct Partner {
    task: TaskNumber,
    row: Row,
}

impl<'i> Machine<'i> {
    pub fn start(image: &'i Image<'i>) -> Machine<'i> {
        let task = |number| TaskState {
            row: image.first_row(number),
            laps: [0; 6],
            register: 0,
            ok: false,
            ended: false,
        };
        let channel = |number| ChannelState {
            capacity: usize::from(image.capacity(number)),
            closed: false,
            buffer: VecDeque::new(),
        };
        Machine {
            image,
            tasks: image.tasks().map(task).collect(),
            channels: image.channels().map(channel).collect(),
            order: Vec::new(),
            halt: None,
            stamp: 0,
        }
    }

    /// The machine that a state stands for, which fits the image.
    pub fn resume(image: &'i Image<'i>, state: &State) -> Machine<'i> {
        let mut machine = Machine::start(image);
        for (task, stored) in machine.tasks.iter_mut().zip(&state.tasks) {
            task.row = RowNumber(stored.row);
            task.laps = stored.laps;
            task.register = stored.register;
            task.ok = stored.ok;
            task.ended = stored.status == Status::Ended;
        }
        for (channel, stored) in machine.channels.iter_mut().zip(&state.channels) {
            channel.closed = stored.closed;
            channel.buffer = stored.values.iter().copied().collect();
        }
        let mover = TaskNumber(state.named);
        machine.order = state.order.iter().copied().map(TaskNumber).collect();
        machine.halt = Fault::numbered(state.fault).map(|fault| Halt { fault, mover });
        machine.stamp = state.stamp;
        machine
    }

    /// The state as it is stored.
    pub fn state(&self) -> State {
        let task = |number: TaskNumber| {
            let task = &self.tasks[number.index()];
            state::TaskState {
                status: self.status(number),
                ok: task.ok,
                register: task.register,
                row: task.row.0,
                laps: task.laps,
            }
        };
        let channel = |channel: &ChannelState| state::ChannelState {
            closed: channel.closed,
            values: channel.buffer.iter().copied().collect(),
        };
        State {
            fault: self.halt.map_or(0, |halt| halt.fault as u8),
            named: self.halt.map_or(0, |halt| halt.mover.0),
            stamp: self.stamp,
            order: self.order.iter().map(|task| task.0).collect(),
            tasks: self.image.tasks().map(task).collect(),
            channels: self.channels.iter().map(channel).collect(),
        }
    }

    pub fn turn(&mut self, asked: u8, choice: u8) -> Turn {
        let mover = TaskNumber(asked);
        self.admit(mover)?;
        let event = self.step(mover, choice);
        self.stamp = self.stamp.wrapping_add(1);
        Ok(event)
    }

    pub fn row(&self, task: TaskNumber) -> RowNumber {
        self.tasks[task.index()].row
    }

    pub fn view(&self, words: &[usize]) -> View {
        let task = |number: TaskNumber| {
            let state = &self.tasks[number.index()];
            TaskView {
                status: self.status(number),
                register: state.register,
                ok: state.ok,
                word: words[state.row.index()],
            }
        };
        let channel = |state: &ChannelState| ChannelView {
            closed: state.closed,
            values: state.buffer.iter().copied().collect(),
        };
        View {
            tasks: self.image.tasks().map(task).collect(),
            channels: self.channels.iter().map(channel).collect(),
            order: self.order.clone(),
            halt: self.halt,
            stamp: self.stamp,
        }
    }

    fn status(&self, task: TaskNumber) -> Status {
        if self.tasks[task.index()].ended {
            Status::Ended
        } else if self.order.contains(&task) {
            Status::Waiting
        } else {
            Status::Able
        }
    }

    fn admit(&self, mover: TaskNumber) -> Result<(), TurnRefusal> {
        if self.halt.is_some() {
            return Err(TurnRefusal::Halted);
        }
        if mover.index() >= self.tasks.len() {
            return Err(TurnRefusal::NoSuchTask);
        }
        match self.status(mover) {
            Status::Ended => Err(TurnRefusal::Ended),
            Status::Waiting => Err(TurnRefusal::Waiting),
            Status::Able => Ok(()),
        }
    }

    fn step(&mut self, mover: TaskNumber, choice: u8) -> Event {
        let row = self.image.row(self.row(mover));
        match row.op {
            SEND | FORWARD | RECV | RANGE => self.operate(mover, row),
            CLOSE => self.close(mover, row),
            REPEAT => self.repeat(mover, row),
            IFOK => {
                let on = self.tasks[mover.index()].ok;
                self.branch(mover, if on { row.next } else { row.other })
            }
            SELECT => self.select(mover, row, choice),
            _ => {
                self.tasks[mover.index()].ended = true;
                Event::Ended
            }
        }
    }

    fn repeat(&mut self, mover: TaskNumber, row: Row) -> Event {
        let laps = &mut self.tasks[mover.index()].laps[usize::from(row.chan)];
        if u16::from(*laps) < row.arg {
            *laps += 1;
            self.branch(mover, row.next)
        } else {
            *laps = 0;
            self.branch(mover, row.other)
        }
    }

    fn branch(&mut self, mover: TaskNumber, target: RowNumber) -> Event {
        self.tasks[mover.index()].row = target;
        Event::Branch
    }

    fn select(&mut self, mover: TaskNumber, row: Row, choice: u8) -> Event {
        let ready: Vec<Row> = self
            .offered(mover)
            .into_iter()
            .filter(|case| !self.would_wait(*case))
            .collect();
        if !ready.is_empty() {
            let case = ready[usize::from(choice) % ready.len()];
            self.operate(mover, case)
        } else if row.arg == 1 {
            self.branch(mover, row.next)
        } else {
            self.wait(mover)
        }
    }

    fn would_wait(&self, case: Row) -> bool {
        let Some(on) = case.channel() else {
            return true;
        };
        let channel = &self.channels[on.index()];
        let idle = match side(case) {
            Some(Side::Send) => {
                channel.buffer.len() >= channel.capacity && !self.waits(on, Side::Receive)
            }
            _ => channel.buffer.is_empty() && !self.waits(on, Side::Send),
        };
        idle && !channel.closed
    }

    /// A send or receive by the mover, at a row of its own or a case row.
    fn operate(&mut self, mover: TaskNumber, row: Row) -> Event {
        match (row.channel(), side(row)) {
            (None, _) => self.wait(mover),
            (Some(on), Some(Side::Send)) => self.send(mover, row, on),
            (Some(on), _) => self.receive(mover, row, on),
        }
    }

    fn send(&mut self, mover: TaskNumber, row: Row, on: ChannelNumber) -> Event {
        let value = self.value_sent(mover, row);
        if self.channels[on.index()].closed {
            return self.fault(mover, Some(on), Fault::SendOnClosed);
        }
        if let Some(receiver) = self.first_waiting(on, Side::Receive) {
            self.leave_order(receiver.task);
            self.finish_receive(receiver.task, receiver.row, value, true);
            self.finish_send(mover, row);
            return Event::Handed(on, value, receiver.task);
        }
        let channel = &mut self.channels[on.index()];
        if channel.buffer.len() < channel.capacity {
            channel.buffer.push_back(value);
            self.finish_send(mover, row);
            return Event::Appended(on, value);
        }
        self.wait(mover)
    }

    fn receive(&mut self, mover: TaskNumber, row: Row, on: ChannelNumber) -> Event {
        if let Some(value) = self.channels[on.index()].buffer.pop_front() {
            let refiller = self.first_waiting(on, Side::Send);
            if let Some(sender) = refiller {
                let refill = self.release_sender(sender);
                self.channels[on.index()].buffer.push_back(refill);
            }
            self.finish_receive(mover, row, value, true);
            return Event::Taken(on, value, refiller.map(|sender| sender.task));
        }
        if let Some(sender) = self.first_waiting(on, Side::Send) {
            let value = self.release_sender(sender);
            self.finish_receive(mover, row, value, true);
            return Event::TakenFromSender(on, value, sender.task);
        }
        if self.channels[on.index()].closed {
            self.finish_receive(mover, row, 0, false);
            return Event::TakenFromClosed(on);
        }
        self.wait(mover)
    }

    fn close(&mut self, mover: TaskNumber, row: Row) -> Event {
        let Some(on) = row.channel() else {
            return self.fault(mover, None, Fault::CloseOfNil);
        };
        if self.channels[on.index()].closed {
            return self.fault(mover, Some(on), Fault::CloseOfClosed);
        }
        if !self.waits(on, Side::Receive) && self.waits(on, Side::Send) {
            return self.fault(mover, Some(on), Fault::CloseOverSenders);
        }
        self.channels[on.index()].closed = true;
        let mut woken = 0;
        while let Some(receiver) = self.first_waiting(on, Side::Receive) {
            self.leave_order(receiver.task);
            self.finish_receive(receiver.task, receiver.row, 0, false);
            woken += 1;
        }
        self.tasks[mover.index()].row = row.next;
        Event::Closed(on, woken)
    }

    fn wait(&mut self, mover: TaskNumber) -> Event {
        self.order.push(mover);
        Event::NowWaiting
    }

    fn fault(&mut self, mover: TaskNumber, on: Channel, fault: Fault) -> Event {
        let halt = Halt { fault, mover };
        self.halt = Some(halt);
        Event::Faulted(on, halt)
    }

    fn waits(&self, on: ChannelNumber, to: Side) -> bool {
        self.first_waiting(on, to).is_some()
    }

    /// The first task in the order that waits on a channel, with its first
    /// matching row.
    fn first_waiting(&self, on: ChannelNumber, to: Side) -> Option<Partner> {
        let matches = |row: &Row| side(*row) == Some(to) && row.channel() == Some(on);
        self.order.iter().find_map(|task| {
            let row = self.offered(*task).into_iter().find(matches)?;
            Some(Partner { task: *task, row })
        })
    }

    /// The rows a task may finish where it stands: a select's case rows in
    /// text order, else its own row.
    fn offered(&self, task: TaskNumber) -> Vec<Row> {
        let number = self.row(task);
        let row = self.image.row(number);
        match row.op {
            SELECT => (1..=row.chan)
                .map(|steps| self.image.row_behind(number, steps))
                .collect(),
            _ => vec![row],
        }
    }

    fn leave_order(&mut self, task: TaskNumber) {
        self.order.retain(|waiting| *waiting != task);
    }

    /// Wakes a waiting sender; gives the value it sends.
    fn release_sender(&mut self, sender: Partner) -> u16 {
        self.leave_order(sender.task);
        self.finish_send(sender.task, sender.row);
        self.value_sent(sender.task, sender.row)
    }

    fn value_sent(&self, task: TaskNumber, row: Row) -> u16 {
        match row.op {
            FORWARD | CASE_FORWARD => self.tasks[task.index()].register,
            _ => row.arg,
        }
    }

    fn finish_send(&mut self, task: TaskNumber, row: Row) {
        self.tasks[task.index()].row = row.next;
    }

    fn finish_receive(&mut self, task: TaskNumber, row: Row, value: u16, ok: bool) {
        let state = &mut self.tasks[task.index()];
        state.register = value;
        state.ok = ok;
        state.row = if row.op == RANGE && !ok {
            row.other
        } else {
            row.next
        };
    }
}

/// Which side of its channel a row is on, if it sends or receives.
fn side(row: Row) -> Option<Side> {
    match row.op {
        SEND | FORWARD | CASE_SEND | CASE_FORWARD => Some(Side::Send),
        RECV | RANGE | CASE_RECV => Some(Side::Receive),
        _ => None,
    }
}
