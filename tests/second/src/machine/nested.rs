//! The machine on nested statements: each task has a remainder, and no rows
//! and lap counts beside it. A send, forward, recv or range is read as a
//! select of one case; every case is an offer, an offer that would not wait
//! has a deal, and a turn strikes one of the deals.

use super::{ChannelView, Event, Fault, Halt, Status, TaskView, Turn, TurnRefusal, View};
use crate::job::{Action, Channel, Job, Operation, Statement};
use crate::numbers::{ChannelNumber, TaskNumber};

pub struct Machine<'j> {
    tasks: Vec<TaskState<'j>>,
    channels: Vec<ChannelState>,
    /// The waiting order, longest first.
    order: Vec<TaskNumber>,
    halt: Option<Halt>,
    stamp: u16,
}

struct TaskState<'j> {
    /// What is left to do, the first statement last.
    remainder: Vec<Left<'j>>,
    /// Place of the task's `end`, where an empty remainder stands.
    end: usize,
    register: u16,
    ok: bool,
    ended: bool,
}

/// A statement of a remainder, with the laps begun if it is a repeat.
#[derive(Clone, Copy)]
struct Left<'j> {
    statement: &'j Statement,
    laps: u8,
}

struct ChannelState {
    capacity: u8,
    closed: bool,
    values: Vec<u16>,
}

/// One operation a task stands at, and the body that follows it.
#[derive(Clone, Copy)]
struct Offer<'j> {
    channel: Channel,
    operation: Operation,
    body: &'j [Statement],
    /// For a range: with ok on the statement stays behind the body, otherwise
    /// both are passed.
    is_loop: bool,
}

type Partner<'j> = (TaskNumber, Offer<'j>);

/// How an offer comes about at once.
enum Deal<'j> {
    SendOnClosed,
    HandOver(Partner<'j>),
    Append,
    TakeOldest(Option<Partner<'j>>),
    TakeOver(Partner<'j>),
    TakeZero,
}

impl<'j> Machine<'j> {
    pub fn start(job: &'j Job) -> Machine<'j> {
        let tasks = job.tasks.iter().map(|task| {
            let mut state = TaskState {
                remainder: Vec::new(),
                end: task.end,
                register: 0,
                ok: false,
                ended: false,
            };
            state.put_first(&task.body);
            state
        });
        let channels = job.capacities.iter().map(|capacity| ChannelState {
            capacity: *capacity,
            closed: false,
            values: Vec::new(),
        });
        Machine {
            tasks: tasks.collect(),
            channels: channels.collect(),
            order: Vec::new(),
            halt: None,
            stamp: 0,
        }
    }

    pub fn turn(&mut self, asked: u8, choice: u8) -> Turn {
        let mover = TaskNumber(asked);
        if self.halt.is_some() {
            return Err(TurnRefusal::Halted);
        }
        match self.tasks.get(mover.index()) {
            None => return Err(TurnRefusal::NoSuchTask),
            Some(task) if task.ended => return Err(TurnRefusal::Ended),
            Some(_) if self.order.contains(&mover) => return Err(TurnRefusal::Waiting),
            Some(_) => (),
        }
        self.stamp = self.stamp.wrapping_add(1);
        Ok(self.take_first(mover, choice))
    }

    pub fn view(&self) -> View {
        let tasks = self.tasks.iter().enumerate().map(|(index, task)| TaskView {
            status: match task.ended {
                true => Status::Ended,
                false if self.order.contains(&TaskNumber(index as u8)) => Status::Waiting,
                false => Status::Able,
            },
            register: task.register,
            ok: task.ok,
            word: task.first().map_or(task.end, |left| left.statement.word),
        });
        let channels = self.channels.iter().map(|channel| ChannelView {
            closed: channel.closed,
            values: channel.values.clone(),
        });
        View {
            tasks: tasks.collect(),
            channels: channels.collect(),
            order: self.order.clone(),
            halt: self.halt,
            stamp: self.stamp,
        }
    }

    fn task(&mut self, task: TaskNumber) -> &mut TaskState<'j> {
        &mut self.tasks[task.index()]
    }

    /// Takes the first statement of the mover's remainder.
    fn take_first(&mut self, mover: TaskNumber, choice: u8) -> Event {
        let task = self.task(mover);
        let Some(left) = task.first() else {
            return task.end();
        };
        match &left.statement.action {
            Action::Stop => task.end(),
            Action::Repeat(laps, body) => {
                task.remainder.pop();
                if left.laps < *laps {
                    let laps = left.laps + 1;
                    task.remainder.push(Left { laps, ..left });
                    task.put_first(body);
                }
                Event::Branch
            }
            Action::Ifok(first, second) => {
                task.remainder.pop();
                task.put_first(if task.ok { first } else { second });
                Event::Branch
            }
            Action::Close(channel) => self.close(mover, *channel),
            Action::Operate(..) | Action::Range(..) => self.bargain(mover, None, choice),
            Action::Select(_, default) => self.bargain(mover, default.as_deref(), choice),
        }
    }

    /// Strikes the chosen one of the mover's deals; with none, takes the
    /// default or waits.
    fn bargain(
        &mut self,
        mover: TaskNumber,
        default: Option<&'j [Statement]>,
        choice: u8,
    ) -> Event {
        let mut deals = Vec::new();
        for offer in self.tasks[mover.index()].offers() {
            let Some(on) = offer.channel else { continue };
            if let Some(deal) = self.deal(on, offer.operation) {
                deals.push((offer, on, deal));
            }
        }
        if !deals.is_empty() {
            let (offer, on, deal) = deals.swap_remove(usize::from(choice) % deals.len());
            return self.strike(mover, offer, on, deal);
        }
        match default {
            Some(body) => {
                let task = self.task(mover);
                task.remainder.pop();
                task.put_first(body);
                Event::Branch
            }
            None => {
                self.order.push(mover);
                Event::NowWaiting
            }
        }
    }

    fn deal(&self, on: ChannelNumber, operation: Operation) -> Option<Deal<'j>> {
        let channel = &self.channels[on.index()];
        if operation != Operation::Recv {
            if channel.closed {
                return Some(Deal::SendOnClosed);
            }
            return match self.receivers(on).next() {
                Some(receiver) => Some(Deal::HandOver(receiver)),
                None => channel.has_room().then_some(Deal::Append),
            };
        }
        match (channel.values.is_empty(), self.senders(on).next()) {
            (false, refiller) => Some(Deal::TakeOldest(refiller)),
            (true, Some(sender)) => Some(Deal::TakeOver(sender)),
            (true, None) => channel.closed.then_some(Deal::TakeZero),
        }
    }

    fn strike(
        &mut self,
        mover: TaskNumber,
        offer: Offer<'j>,
        on: ChannelNumber,
        deal: Deal<'j>,
    ) -> Event {
        match deal {
            Deal::SendOnClosed => self.fault(mover, Some(on), Fault::SendOnClosed),
            Deal::HandOver((receiver, wanted)) => {
                let value = self.task(mover).sends(offer);
                self.wake(receiver).receives(wanted, value, true);
                Event::Handed(on, value, receiver)
            }
            Deal::Append => {
                let value = self.task(mover).sends(offer);
                self.channels[on.index()].values.push(value);
                Event::Appended(on, value)
            }
            Deal::TakeOldest(refiller) => {
                let value = self.channels[on.index()].values.remove(0);
                if let Some((sender, offered)) = refiller {
                    let refill = self.wake(sender).sends(offered);
                    self.channels[on.index()].values.push(refill);
                }
                self.task(mover).receives(offer, value, true);
                Event::Taken(on, value, refiller.map(|(sender, _)| sender))
            }
            Deal::TakeOver((sender, offered)) => {
                let value = self.wake(sender).sends(offered);
                self.task(mover).receives(offer, value, true);
                Event::TakenFromSender(on, value, sender)
            }
            Deal::TakeZero => {
                self.task(mover).receives(offer, 0, false);
                Event::TakenFromClosed(on)
            }
        }
    }

    fn close(&mut self, mover: TaskNumber, channel: Channel) -> Event {
        let Some(on) = channel else {
            return self.fault(mover, None, Fault::CloseOfNil);
        };
        if self.channels[on.index()].closed {
            return self.fault(mover, channel, Fault::CloseOfClosed);
        }
        let receivers: Vec<Partner> = self.receivers(on).collect();
        if receivers.is_empty() && self.senders(on).next().is_some() {
            return self.fault(mover, channel, Fault::CloseOverSenders);
        }
        self.channels[on.index()].closed = true;
        for (receiver, wanted) in &receivers {
            self.wake(*receiver).receives(*wanted, 0, false);
        }
        self.task(mover).remainder.pop();
        Event::Closed(on, receivers.len() as u16)
    }

    fn fault(&mut self, mover: TaskNumber, channel: Channel, fault: Fault) -> Event {
        let halt = Halt { fault, mover };
        self.halt = Some(halt);
        Event::Faulted(channel, halt)
    }

    fn receivers(&self, on: ChannelNumber) -> impl Iterator<Item = Partner<'j>> + '_ {
        self.waiting(on, |operation| operation == Operation::Recv)
    }

    fn senders(&self, on: ChannelNumber) -> impl Iterator<Item = Partner<'j>> + '_ {
        self.waiting(on, |operation| operation != Operation::Recv)
    }

    /// The waiting tasks in order, each with its first matching offer.
    fn waiting(
        &self,
        on: ChannelNumber,
        fits: fn(Operation) -> bool,
    ) -> impl Iterator<Item = Partner<'j>> + '_ {
        self.order.iter().filter_map(move |waiting| {
            let offers = self.tasks[waiting.index()].offers();
            let matching = |offer: &Offer| offer.channel == Some(on) && fits(offer.operation);
            let first = offers.into_iter().find(matching)?;
            Some((*waiting, first))
        })
    }

    /// Takes a task out of the waiting order.
    fn wake(&mut self, woken: TaskNumber) -> &mut TaskState<'j> {
        self.order.retain(|waiting| *waiting != woken);
        self.task(woken)
    }
}

impl ChannelState {
    fn has_room(&self) -> bool {
        self.values.len() < usize::from(self.capacity)
    }
}

impl<'j> TaskState<'j> {
    fn first(&self) -> Option<Left<'j>> {
        self.remainder.last().copied()
    }

    /// Puts a body ahead of the rest of the remainder.
    fn put_first(&mut self, body: &'j [Statement]) {
        let lefts = body.iter().map(|statement| Left { statement, laps: 0 });
        self.remainder.extend(lefts.rev());
    }

    fn end(&mut self) -> Event {
        self.ended = true;
        Event::Ended
    }

    /// What the first statement offers, in text order.
    fn offers(&self) -> Vec<Offer<'j>> {
        let Some(left) = self.first() else {
            return Vec::new();
        };
        match &left.statement.action {
            Action::Operate(channel, operation) => vec![Offer {
                channel: *channel,
                operation: *operation,
                body: &[],
                is_loop: false,
            }],
            Action::Range(channel, body) => vec![Offer {
                channel: *channel,
                operation: Operation::Recv,
                body,
                is_loop: true,
            }],
            Action::Select(cases, _) => {
                let offers = cases.iter().map(|case| Offer {
                    channel: case.channel,
                    operation: case.operation,
                    body: &case.body,
                    is_loop: false,
                });
                offers.collect()
            }
            _ => Vec::new(),
        }
    }

    /// Sends by `offer` and moves on; gives the value sent.
    fn sends(&mut self, offer: Offer<'j>) -> u16 {
        self.remainder.pop();
        self.put_first(offer.body);
        match offer.operation {
            Operation::Send(value) => value,
            _ => self.register,
        }
    }

    /// Receives by `offer` and moves on.
    fn receives(&mut self, offer: Offer<'j>, value: u16, ok: bool) {
        self.register = value;
        self.ok = ok;
        let stays = offer.is_loop && ok;
        if !stays {
            self.remainder.pop();
        }
        if stays || !offer.is_loop {
            self.put_first(offer.body);
        }
    }
}
