//! The text reader (document 01, "Job text" and refusals 1 to 10 of "What comes
//! back"): bytes of a job text to nested statements, or the refusal's number
//! and place. Words are read once, from the left, so the first bad word is the
//! one refused; at one word the checks stand in the order of their numbers.

use crate::job::{Action, Body, Case, Channel, Job, Operation, Statement, Task};
use crate::numbers::{refuse, ChannelNumber, Refusal};

const TEXT_LIMIT: usize = 16_384;
const CHANNEL_LIMIT: usize = 16;
const TASK_LIMIT: usize = 16;
const CASE_LIMIT: usize = 8;
const DEPTH_LIMIT: u8 = 6;
const ROW_LIMIT: usize = 1_024;
const CAPACITY_LIMIT: u32 = 16;

pub fn read(text: &[u8]) -> Result<Job, Refusal> {
    if text.len() > TEXT_LIMIT {
        return refuse(1, 0);
    }
    if let Some(place) = text.iter().position(|byte| !is_allowed(*byte)) {
        return refuse(2, place);
    }
    Reader::new(text).job()
}

fn is_allowed(byte: u8) -> bool {
    byte.is_ascii_lowercase() || byte.is_ascii_digit() || is_gap(byte)
}

/// Blank and newline part words.
pub fn is_gap(byte: u8) -> bool {
    byte == b' ' || byte == b'\n'
}

/// A number is digits only, with no leading 0 unless it is `0`. One too large
/// for any range reads as the largest `u32`.
pub fn number(word: &[u8]) -> Option<u32> {
    let digits_only = !word.is_empty() && word.iter().all(u8::is_ascii_digit);
    if !digits_only || (word[0] == b'0' && word.len() > 1) {
        return None;
    }
    let value = word.iter().fold(0u32, |value, digit| {
        value
            .saturating_mul(10)
            .saturating_add(u32::from(digit - b'0'))
    });
    Some(value)
}

#[derive(Clone, Copy)]
struct Word<'t> {
    bytes: &'t [u8],
    place: usize,
}

struct Reader<'t> {
    text: &'t [u8],
    at: usize,
    channels: usize,
    rows: usize,
}

impl<'t> Reader<'t> {
    fn new(text: &'t [u8]) -> Self {
        Reader {
            text,
            at: 0,
            channels: 0,
            rows: 0,
        }
    }

    fn job(mut self) -> Result<Job, Refusal> {
        let mut capacities = Vec::new();
        let mut tasks = Vec::new();
        while let Some(word) = self.next_word() {
            match word.bytes {
                b"chan" if tasks.is_empty() => {
                    count(capacities.len(), CHANNEL_LIMIT, word)?;
                    capacities.push(self.number_up_to(CAPACITY_LIMIT)? as u8);
                    self.channels = capacities.len();
                }
                b"task" => {
                    count(tasks.len(), TASK_LIMIT, word)?;
                    tasks.push(self.task()?);
                }
                _ => return refuse(3, word.place),
            }
        }
        if tasks.is_empty() {
            return refuse(10, self.text.len());
        }
        Ok(Job { capacities, tasks })
    }

    fn task(&mut self) -> Result<Task, Refusal> {
        let (body, end) = self.body(0, &[b"end"])?;
        self.need_row(end)?;
        Ok(Task {
            body,
            end: end.place,
        })
    }

    /// Statements up to one of the closing words, which is handed back too.
    fn body(&mut self, depth: u8, closing: &[&[u8]]) -> Result<(Body, Word<'t>), Refusal> {
        let mut body = Body::new();
        loop {
            let word = self.due_word()?;
            if closing.contains(&word.bytes) {
                return Ok((body, word));
            }
            body.push(self.statement(word, depth)?);
        }
    }

    fn statement(&mut self, word: Word, depth: u8) -> Result<Statement, Refusal> {
        let action = match word.bytes {
            b"send" | b"forward" | b"recv" | b"close" | b"stop" => {
                self.need_row(word)?;
                self.simple(word)?
            }
            b"range" | b"repeat" | b"ifok" | b"select" => {
                need_depth(word, depth)?;
                self.need_row(word)?;
                self.block(word, depth + 1)?
            }
            _ => return refuse(3, word.place),
        };
        Ok(Statement {
            word: word.place,
            action,
        })
    }

    fn simple(&mut self, word: Word) -> Result<Action, Refusal> {
        match word.bytes {
            b"stop" => Ok(Action::Stop),
            b"close" => Ok(Action::Close(self.channel()?)),
            _ => {
                let (channel, operation) = self.operation(word)?;
                Ok(Action::Operate(channel, operation))
            }
        }
    }

    /// What stands behind an operation word; 3 if the word is none.
    fn operation(&mut self, word: Word) -> Result<(Channel, Operation), Refusal> {
        match word.bytes {
            b"send" => {
                let channel = self.channel()?;
                let value = self.number_up_to(u32::from(u16::MAX))? as u16;
                Ok((channel, Operation::Send(value)))
            }
            b"forward" => Ok((self.channel()?, Operation::Forward)),
            b"recv" => Ok((self.channel()?, Operation::Recv)),
            _ => refuse(3, word.place),
        }
    }

    /// What stands behind a block word; `inside` is the depth of its bodies.
    fn block(&mut self, word: Word, inside: u8) -> Result<Action, Refusal> {
        match word.bytes {
            b"range" => {
                let channel = self.channel()?;
                Ok(Action::Range(channel, self.body(inside, &[b"end"])?.0))
            }
            b"repeat" => {
                let laps = self.number_up_to(u32::from(u8::MAX))? as u8;
                Ok(Action::Repeat(laps, self.body(inside, &[b"end"])?.0))
            }
            b"ifok" => self.ifok(inside),
            _ => self.select(inside),
        }
    }

    fn ifok(&mut self, inside: u8) -> Result<Action, Refusal> {
        let (first, closing) = self.body(inside, &[b"else", b"end"])?;
        let second = match closing.bytes {
            b"else" => self.body(inside, &[b"end"])?.0,
            _ => Body::new(),
        };
        Ok(Action::Ifok(first, second))
    }

    fn select(&mut self, inside: u8) -> Result<Action, Refusal> {
        let mut cases = Vec::new();
        let mut word = self.due_word()?;
        loop {
            match word.bytes {
                b"case" => {
                    count(cases.len(), CASE_LIMIT, word)?;
                    self.need_row(word)?;
                    let (case, closing) = self.case(word, inside)?;
                    cases.push(case);
                    word = closing;
                }
                b"default" => {
                    let (body, _) = self.body(inside, &[b"end"])?;
                    return Ok(Action::Select(cases, Some(body)));
                }
                b"end" => return Ok(Action::Select(cases, None)),
                _ => return refuse(3, word.place),
            }
        }
    }

    fn case(&mut self, word: Word, inside: u8) -> Result<(Case, Word<'t>), Refusal> {
        let operation_word = self.due_word()?;
        let (channel, operation) = self.operation(operation_word)?;
        let (body, closing) = self.body(inside, &[b"case", b"default", b"end"])?;
        let case = Case {
            word: word.place,
            channel,
            operation,
            body,
        };
        Ok((case, closing))
    }

    fn channel(&mut self) -> Result<Channel, Refusal> {
        let word = self.due_word()?;
        if word.bytes == b"nil" {
            return Ok(None);
        }
        match number(word.bytes) {
            None => refuse(4, word.place),
            Some(value) if (value as usize) < self.channels => Ok(Some(ChannelNumber(value as u8))),
            Some(_) => refuse(5, word.place),
        }
    }

    fn number_up_to(&mut self, limit: u32) -> Result<u32, Refusal> {
        let word = self.due_word()?;
        match number(word.bytes) {
            None => refuse(4, word.place),
            Some(value) if value <= limit => Ok(value),
            Some(_) => refuse(5, word.place),
        }
    }

    /// Counts one row for `word`, in text order.
    fn need_row(&mut self, word: Word) -> Result<(), Refusal> {
        if self.rows == ROW_LIMIT {
            return refuse(8, word.place);
        }
        self.rows += 1;
        Ok(())
    }

    /// The next word, where the text may not stop.
    fn due_word(&mut self) -> Result<Word<'t>, Refusal> {
        match self.next_word() {
            Some(word) => Ok(word),
            None => refuse(9, self.text.len()),
        }
    }

    fn next_word(&mut self) -> Option<Word<'t>> {
        let rest = &self.text[self.at..];
        let place = self.at + rest.iter().position(|byte| !is_gap(*byte))?;
        let rest = &self.text[place..];
        let length = rest
            .iter()
            .position(|byte| is_gap(*byte))
            .unwrap_or(rest.len());
        self.at = place + length;
        Some(Word {
            bytes: &rest[..length],
            place,
        })
    }
}

/// Refuses `word` where as many of its kind as may be stand already.
fn count(standing: usize, limit: usize, word: Word) -> Result<(), Refusal> {
    if standing == limit {
        return refuse(6, word.place);
    }
    Ok(())
}

/// Refuses the block word `word` inside `depth` blocks where that is too deep.
fn need_depth(word: Word, depth: u8) -> Result<(), Refusal> {
    if depth == DEPTH_LIMIT {
        return refuse(7, word.place);
    }
    Ok(())
}

#[cfg(test)]
mod tests {
    use super::*;

    fn refusal(text: &str) -> Option<(u8, usize)> {
        let answer = read(text.as_bytes());
        answer.err().map(|refusal| (refusal.number, refusal.place))
    }

    #[test]
    fn proved_texts() {
        assert_eq!(refusal(""), Some((10, 0)));
        assert_eq!(refusal("chan"), Some((9, 4)));
        assert_eq!(refusal("chan 17"), Some((5, 5)));
        assert_eq!(refusal("chan 07"), Some((4, 5)));
        assert_eq!(refusal("task end"), None);
        assert_eq!(refusal("task stop"), Some((9, 9)));
    }

    #[test]
    fn numbers_of_any_length() {
        assert_eq!(number(b"0"), Some(0));
        assert_eq!(number(b"00"), None);
        assert_eq!(number(b""), None);
        assert_eq!(number(b"1a"), None);
        assert_eq!(refusal("chan 18446744073709551616"), Some((5, 5)));
        assert_eq!(refusal("task repeat 4294967296 end end"), Some((5, 12)));
    }

    #[test]
    fn text_length() {
        let mut text = String::from("task end");
        text.push_str(&" ".repeat(TEXT_LIMIT - text.len()));
        assert_eq!(refusal(&text), None);
        text.push('\t');
        assert_eq!(refusal(&text), Some((1, 0)));
    }

    #[test]
    fn a_bad_byte_comes_before_a_bad_word() {
        assert_eq!(refusal("taks end\t"), Some((2, 8)));
    }

    #[test]
    fn a_word_out_of_place_comes_before_counts() {
        let chans = "chan 0 ".repeat(16);
        assert_eq!(refusal(&format!("{chans}chan")), Some((6, 112)));
        assert_eq!(refusal(&format!("{chans}task end chan")), Some((3, 121)));
        let cases = "case recv nil ".repeat(8);
        let ninth = format!("task select {cases}case");
        assert_eq!(refusal(&ninth), Some((6, 124)));
        let late = format!("task select {cases}default case");
        assert_eq!(refusal(&late), Some((3, 132)));
    }

    #[test]
    fn counts_come_before_depth_and_depth_before_rows() {
        let cases = "case recv nil ".repeat(8);
        let text = format!("task {}select {cases}case", "stop ".repeat(1_015));
        assert_eq!(refusal(&text), Some((6, text.len() - 4)));
        let text = format!("task {}{}ifok", "stop ".repeat(1_018), "ifok ".repeat(6));
        assert_eq!(refusal(&text), Some((7, text.len() - 4)));
        let text = format!("task {}{}ifok", "stop ".repeat(1_019), "ifok ".repeat(5));
        assert_eq!(refusal(&text), Some((8, text.len() - 4)));
    }
}
