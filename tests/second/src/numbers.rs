//! The numbers of document 01, kept apart by kind: channel, task and row
//! numbers, and the number and place of a refusal.

#[derive(Clone, Copy, Debug, PartialEq, Eq)]
pub struct ChannelNumber(pub u8);

#[derive(Clone, Copy, Debug, PartialEq, Eq)]
pub struct TaskNumber(pub u8);

#[derive(Clone, Copy, Debug, PartialEq, Eq)]
pub struct RowNumber(pub u16);

#[derive(Clone, Copy, Debug, PartialEq, Eq)]
pub struct Refusal {
    pub number: u8,
    pub place: usize,
}

/// The answer `number` at `place`, for a function that may refuse.
pub fn refuse<T>(number: u8, place: usize) -> Result<T, Refusal> {
    Err(Refusal { number, place })
}

impl ChannelNumber {
    pub fn index(self) -> usize {
        usize::from(self.0)
    }
}

impl TaskNumber {
    pub fn index(self) -> usize {
        usize::from(self.0)
    }
}

impl RowNumber {
    pub fn index(self) -> usize {
        usize::from(self.0)
    }
}
