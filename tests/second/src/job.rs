//! A job as nested statements (document 01, "Job text"): what a text says,
//! before any row is laid out. Every part that becomes a row keeps the place of
//! the word it was read from.

use crate::numbers::ChannelNumber;

/// A declared channel, or nil.
pub type Channel = Option<ChannelNumber>;

pub type Body = Vec<Statement>;

#[derive(Debug, PartialEq, Eq)]
pub struct Job {
    pub capacities: Vec<u8>,
    pub tasks: Vec<Task>,
}

#[derive(Debug, PartialEq, Eq)]
pub struct Task {
    pub body: Body,
    /// Place of the task's own `end`.
    pub end: usize,
}

#[derive(Debug, PartialEq, Eq)]
pub struct Statement {
    /// Place of the statement word.
    pub word: usize,
    pub action: Action,
}

#[derive(Debug, PartialEq, Eq)]
pub enum Action {
    Operate(Channel, Operation),
    Close(Channel),
    Range(Channel, Body),
    Repeat(u8, Body),
    Ifok(Body, Body),
    Select(Vec<Case>, Option<Body>),
    Stop,
}

#[derive(Debug, PartialEq, Eq)]
pub struct Case {
    /// Place of the word `case`.
    pub word: usize,
    pub channel: Channel,
    pub operation: Operation,
    pub body: Body,
}

/// The three kinds of operation that stand alone or in a case.
#[derive(Clone, Copy, Debug, PartialEq, Eq)]
pub enum Operation {
    Send(u16),
    Forward,
    Recv,
}
