//! A call of a schedule and what it leaves, as a block of text: a line for each
//! input, then the answer, then each slice that may be written. Bytes are pairs
//! of hex digits, a run of one byte is `HH*N`, `-` is an empty slice, and `same`
//! says that no byte changed.

use crate::schedule::Call;
use crate::state::State;

/// Runs of at least so many are told as such.
const SHORTEST_RUN: usize = 4;

pub fn block(name: &str, call: &Call) -> String {
    let left = call.make();
    let (number, place) = match left.answer {
        Ok(length) => (0, length),
        Err(refusal) => (refusal.number, refusal.place),
    };
    let mut lines = vec![format!("== {name}"), String::from("call schedule")];
    lines.push(format!("image {}", bytes(&call.image)));
    lines.extend(origin(call.state.as_ref()));
    lines.push(format!("pairs {}", bytes(&call.pairs)));
    lines.push(format!("records {}", bytes(&call.records)));
    lines.push(format!("return {number} {place}"));
    if let Some(state) = &left.state {
        let before = call.state.as_ref().map(State::to_bytes);
        lines.push(after("state", before.as_deref(), &state.to_bytes()));
    }
    lines.push(after("records", Some(&call.records), &left.records));
    lines.iter().map(|line| format!("{line}\n")).collect()
}

fn origin(state: Option<&State>) -> Vec<String> {
    let Some(state) = state else {
        return vec![String::from("from start")];
    };
    let counts = format!("counts {} {}", state.tasks.len(), state.channels.len());
    let cells = format!("state {}", bytes(&state.to_bytes()));
    vec![String::from("from state"), counts, cells]
}

fn after(slice: &str, before: Option<&[u8]>, now: &[u8]) -> String {
    if before == Some(now) {
        return format!("{slice}-after same");
    }
    format!("{slice}-after {}", bytes(now))
}

fn bytes(bytes: &[u8]) -> String {
    if bytes.is_empty() {
        return String::from("-");
    }
    let mut told = String::new();
    for run in bytes.chunk_by(|a, b| a == b) {
        if run.len() < SHORTEST_RUN {
            run.iter().for_each(|byte| told += &format!("{byte:02x}"));
        } else {
            told += &format!(" {:02x}*{} ", run[0], run.len());
        }
    }
    told.trim().to_string()
}

#[cfg(test)]
mod tests {
    use super::*;
    use crate::image::image_of;
    use crate::text;

    #[test]
    fn bytes_as_text() {
        assert_eq!(bytes(&[]), "-");
        assert_eq!(bytes(&[0, 1, 255]), "0001ff");
        assert_eq!(bytes(&[7, 7, 7, 238]), "070707ee");
        assert_eq!(bytes(&[1, 0, 0, 0, 0, 2, 2]), "01 00*4 0202");
    }

    #[test]
    fn a_start_and_its_first_turn() {
        let call = Call {
            image: image_of(&text::read(b"task end").unwrap()),
            state: None,
            pairs: vec![0, 0],
            records: vec![0xEE; 7],
        };
        let lines = [
            "== first",
            "call schedule",
            "image 0c 00*9 010000010a005a01",
            "from start",
            "pairs 0000",
            "records ee*7",
            "return 0 6",
            "state-after 000001 00*18 02 00*735",
            "records-after 0900ff0000ffee\n",
        ];
        assert_eq!(block("first", &call), lines.join("\n"));
    }

    #[test]
    fn no_state_where_there_is_no_machine() {
        let mut call = Call {
            image: vec![0; 7],
            state: None,
            pairs: vec![],
            records: vec![],
        };
        let refused = block("none", &call);
        assert!(refused.ends_with("return 21 0\nrecords-after same\n"));
        call.image = image_of(&text::read(b"task end").unwrap());
        call.state = call.make().state;
        let kept = block("kept", &call);
        assert!(kept.contains("\nfrom state\ncounts 1 0\nstate 00*757\n"));
        assert!(kept.ends_with("return 0 0\nstate-after same\nrecords-after same\n"));
    }
}
