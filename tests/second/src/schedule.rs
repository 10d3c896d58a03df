//! A whole schedule in one call (document 02, E1): pairs of task and choice to
//! records of six bytes, or the refusal that comes ahead of any turn.

use crate::image::Image;
use crate::machine::{columns, rows, Turn};
use crate::numbers::Refusal;
use crate::state::State;

/// Bytes of an event record.
pub const RECORD_BYTES: usize = 6;

/// What a call is made with; without a state, the image starts a machine.
#[derive(Debug)]
pub struct Call {
    pub image: Vec<u8>,
    pub state: Option<State>,
    pub pairs: Vec<u8>,
    pub records: Vec<u8>,
}

/// What a call leaves: its answer, the number of bytes of records or a
/// refusal, the state, if there was a machine, and the records slice.
#[derive(Debug, PartialEq, Eq)]
pub struct Left {
    pub answer: Result<usize, Refusal>,
    pub state: Option<State>,
    pub records: Vec<u8>,
}

impl Call {
    pub fn make(&self) -> Left {
        match Image::open(&self.image) {
            Err(refusal) => self.refused(refusal, self.state.clone()),
            Ok(image) => self.on(&image),
        }
    }

    /// The length of the records slice that the pairs ask for.
    pub fn length_needed(&self) -> usize {
        RECORD_BYTES * (self.pairs.len() / 2)
    }

    fn on(&self, image: &Image) -> Left {
        let start = || rows::Machine::start(image).state();
        let state = self.state.clone().unwrap_or_else(start);
        match self.refusal(image, &state) {
            Some(refusal) => self.refused(refusal, Some(state)),
            None => self.run(rows::Machine::resume(image, &state)),
        }
    }

    fn refused(&self, refusal: Refusal, state: Option<State>) -> Left {
        Left {
            answer: Err(refusal),
            state,
            records: self.records.clone(),
        }
    }

    /// What is asked of the state, the pairs and the records slice, in order.
    fn refusal(&self, image: &Image, state: &State) -> Option<Refusal> {
        let needed = self.length_needed();
        let (number, place) = if !state.fits(image) {
            (17, 0)
        } else if self.pairs.len() % 2 == 1 {
            (30, 0)
        } else if self.records.len() < needed {
            (31, needed)
        } else {
            return None;
        };
        Some(Refusal { number, place })
    }

    fn run(&self, mut machine: rows::Machine) -> Left {
        let mut records = self.records.clone();
        let pairs = self.pairs.chunks_exact(2);
        for (pair, record) in pairs.zip(records.chunks_exact_mut(RECORD_BYTES)) {
            let turn = machine.turn(pair[0], pair[1]);
            record.copy_from_slice(&event_record(pair[0], turn));
        }
        Left {
            answer: Ok(self.length_needed()),
            state: Some(machine.state()),
            records,
        }
    }
}

/// Event, task asked for, channel, value (low byte first), partner.
fn event_record(asked: u8, turn: Turn) -> [u8; RECORD_BYTES] {
    let [event, channel, value, partner] = columns(turn);
    let [low, high] = value.to_le_bytes();
    [event as u8, asked, channel as u8, low, high, partner as u8]
}

#[cfg(test)]
mod tests {
    use super::*;
    use crate::image::image_of;
    use crate::machine::Status;
    use crate::state::{ChannelState, TaskState};
    use crate::text;

    const JOB: &str = "chan 1 task send 0 7 send 0 9 close 0 end task range 0 end end";

    /// The pairs of document 01's listing.
    const PAIRS: [u8; 18] = [0, 0, 0, 0, 0, 0, 1, 0, 0, 0, 1, 0, 1, 0, 1, 0, 0, 0];

    /// Its nine lines, as records.
    const RECORDS: [[u8; RECORD_BYTES]; 9] = [
        [1, 0, 0, 7, 0, 255],
        [7, 0, 255, 0, 0, 255],
        [15, 0, 255, 0, 0, 255],
        [3, 1, 0, 7, 0, 0],
        [6, 0, 0, 0, 0, 255],
        [3, 1, 0, 9, 0, 255],
        [5, 1, 0, 0, 0, 255],
        [9, 1, 255, 0, 0, 255],
        [9, 0, 255, 0, 0, 255],
    ];

    fn task(status: Status, row: u16) -> TaskState {
        TaskState {
            status,
            ok: false,
            register: 0,
            row,
            laps: [0; 6],
        }
    }

    fn call(state: Option<State>, pairs: &[u8], room: usize) -> Call {
        Call {
            image: image_of(&text::read(JOB.as_bytes()).unwrap()),
            state,
            pairs: pairs.to_vec(),
            records: vec![0xEE; room],
        }
    }

    fn answer(call: &Call) -> (u8, usize) {
        match call.make().answer {
            Ok(length) => (0, length),
            Err(refusal) => (refusal.number, refusal.place),
        }
    }

    fn end_state() -> State {
        State {
            fault: 0,
            named: 0,
            stamp: 8,
            order: vec![],
            tasks: vec![task(Status::Ended, 3), task(Status::Ended, 5)],
            channels: vec![ChannelState {
                closed: true,
                values: vec![],
            }],
        }
    }

    #[test]
    fn the_listing_of_the_document_in_one_call() {
        let left = call(None, &PAIRS, 57).make();
        assert_eq!(left.answer, Ok(54));
        assert_eq!(left.records[..54], RECORDS.concat());
        assert_eq!(left.records[54..], [0xEE; 3]);
        assert_eq!(left.state, Some(end_state()));
    }

    #[test]
    fn the_same_in_two_calls() {
        let first = call(None, &PAIRS[..6], 18).make();
        let waits = first.state.clone().unwrap();
        assert_eq!(waits.order, [0]);
        assert_eq!(waits.tasks[0].status, Status::Waiting);
        assert_eq!(waits.channels[0].values, [7]);
        let second = call(first.state, &PAIRS[6..], 36).make();
        assert_eq!([first.records, second.records].concat(), RECORDS.concat());
        assert_eq!(second.state, Some(end_state()));
    }

    #[test]
    fn refusals_in_order() {
        let mut unfit = end_state();
        unfit.fault = 5;
        let mut wrong_image = call(Some(unfit.clone()), &PAIRS[..3], 0);
        *wrong_image.image.last_mut().unwrap() = 2;
        assert_eq!(answer(&wrong_image), (23, 0));
        assert_eq!(wrong_image.make().state, Some(unfit.clone()));
        assert_eq!(answer(&call(Some(unfit), &PAIRS[..3], 0)), (17, 0));
        assert_eq!(answer(&call(None, &PAIRS[..3], 0)), (30, 0));
        assert_eq!(answer(&call(None, &PAIRS, 53)), (31, 54));
        assert_eq!(answer(&call(None, &[], 0)), (0, 0));
        let short = call(Some(end_state()), &PAIRS, 53).make();
        assert_eq!(short.state, Some(end_state()));
        assert_eq!(short.records, [0xEE; 53]);
    }

    #[test]
    fn states_that_do_not_fit() {
        let waits = call(None, &PAIRS[..4], 12).make().state.unwrap();
        assert_eq!(answer(&call(Some(waits.clone()), &[], 0)), (0, 0));
        let damage: [fn(&mut State); 9] = [
            |state| state.fault = 5,
            |state| state.tasks[1].row = 6,
            |state| state.tasks[0].row = 2,
            |state| state.channels[0].values.push(1),
            |state| state.order.clear(),
            |state| state.order.push(0),
            |state| state.order.push(1),
            |state| state.order[0] = 2,
            |state| state.channels.clear(),
        ];
        for (index, spoil) in damage.iter().enumerate() {
            let mut state = waits.clone();
            spoil(&mut state);
            assert_eq!(answer(&call(Some(state), &[], 0)), (17, 0), "{index}");
        }
    }
}
