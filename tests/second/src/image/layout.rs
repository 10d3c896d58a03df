//! Layout: nested statements laid out as rows in text order, each with the
//! rows it leads to, and the image's bytes written from them.

use super::{
    Counts, Row, CASE_FORWARD, CASE_RECV, CASE_SEND, CLOSE, FORWARD, IFOK, MARK, NIL, RANGE, RECV,
    REPEAT, SELECT, SEND, STOP, TRAILER_BYTES, VERSION,
};
use crate::job::{Action, Case, Channel, Job, Operation, Statement};
use crate::numbers::{refuse, Refusal, RowNumber};

pub struct Layout<'j> {
    capacities: &'j [u8],
    rows: Vec<Row>,
    /// For each row, the place of the word it comes from.
    words: Vec<usize>,
    first_rows: Vec<RowNumber>,
}

impl<'j> Layout<'j> {
    pub fn of(job: &'j Job) -> Layout<'j> {
        let mut layout = Layout {
            capacities: &job.capacities,
            rows: Vec::new(),
            words: Vec::new(),
            first_rows: Vec::new(),
        };
        for task in &job.tasks {
            layout.first_rows.push(layout.here());
            let stop = ahead(layout.here(), rows_of_body(&task.body));
            layout.lay_body(&task.body, stop, 0);
            layout.lay(task.end, Row::new(STOP));
        }
        layout
    }

    pub fn words(&self) -> &[usize] {
        &self.words
    }

    /// Writes the image at the buffer's start and gives its length, or refuses
    /// a buffer shorter than that and leaves it alone.
    pub fn write(&self, buffer: &mut [u8]) -> Result<usize, Refusal> {
        let image = self.image();
        if buffer.len() < image.len() {
            return refuse(11, image.len());
        }
        buffer[..image.len()].copy_from_slice(&image);
        Ok(image.len())
    }

    fn image(&self) -> Vec<u8> {
        let mut image = Vec::with_capacity(self.counts().distance() + TRAILER_BYTES);
        for row in &self.rows {
            image.extend(row.to_bytes());
        }
        image.extend(self.capacities);
        for first_row in &self.first_rows {
            image.extend(first_row.0.to_le_bytes());
        }
        image.extend(self.trailer());
        image
    }

    fn trailer(&self) -> [u8; TRAILER_BYTES] {
        let counts = self.counts();
        let [rows_low, rows_high] = (counts.rows as u16).to_le_bytes();
        let [back_low, back_high] = (counts.distance() as u16).to_le_bytes();
        let channels = counts.channels as u8;
        let tasks = counts.tasks as u8;
        [
            rows_low, rows_high, channels, tasks, back_low, back_high, MARK, VERSION,
        ]
    }

    fn counts(&self) -> Counts {
        Counts {
            rows: self.rows.len(),
            channels: self.capacities.len(),
            tasks: self.first_rows.len(),
        }
    }

    /// The row to be laid next.
    fn here(&self) -> RowNumber {
        RowNumber(self.rows.len() as u16)
    }

    fn lay(&mut self, word: usize, row: Row) {
        self.rows.push(row);
        self.words.push(word);
    }

    /// Lays a body inside `depth` blocks whose end leads to `after`.
    fn lay_body(&mut self, body: &[Statement], after: RowNumber, depth: u8) {
        for (index, statement) in body.iter().enumerate() {
            let is_last = index + 1 == body.len();
            let follow = if is_last {
                after
            } else {
                ahead(self.here(), rows_of(statement))
            };
            self.lay_statement(statement, follow, depth);
        }
    }

    fn lay_statement(&mut self, statement: &Statement, follow: RowNumber, depth: u8) {
        let word = statement.word;
        match &statement.action {
            Action::Operate(channel, operation) => {
                let (op, arg) = operation_fields(*operation, [SEND, FORWARD, RECV]);
                self.lay(word, operation_row(op, *channel, arg, follow));
            }
            Action::Close(channel) => self.lay(word, operation_row(CLOSE, *channel, 0, follow)),
            Action::Stop => self.lay(word, Row::new(STOP)),
            Action::Range(channel, body) => {
                let row = operation_row(RANGE, *channel, 0, follow);
                self.lay_loop(word, row, body, follow, depth);
            }
            Action::Repeat(laps, body) => {
                let mut row = Row::new(REPEAT);
                row.chan = depth;
                row.arg = u16::from(*laps);
                self.lay_loop(word, row, body, follow, depth);
            }
            Action::Ifok(first, second) => self.lay_ifok(word, first, second, follow, depth),
            Action::Select(cases, default) => {
                self.lay_cases(word, cases, default.as_deref(), follow);
                for case in cases {
                    self.lay_body(&case.body, follow, depth + 1);
                }
                self.lay_body(default.as_deref().unwrap_or(&[]), follow, depth + 1);
            }
        }
    }

    /// Lays a loop's row, `row` but for its targets, and the body behind it.
    fn lay_loop(
        &mut self,
        word: usize,
        row: Row,
        body: &[Statement],
        follow: RowNumber,
        depth: u8,
    ) {
        let own = self.here();
        let next = entry(body, ahead(own, 1), own);
        let other = follow;
        self.lay(word, Row { next, other, ..row });
        self.lay_body(body, own, depth + 1);
    }

    fn lay_ifok(
        &mut self,
        word: usize,
        first: &[Statement],
        second: &[Statement],
        follow: RowNumber,
        depth: u8,
    ) {
        let first_start = ahead(self.here(), 1);
        let second_start = ahead(first_start, rows_of_body(first));
        let mut row = Row::new(IFOK);
        row.next = entry(first, first_start, follow);
        row.other = entry(second, second_start, follow);
        self.lay(word, row);
        self.lay_body(first, follow, depth + 1);
        self.lay_body(second, follow, depth + 1);
    }

    /// Lays a select's row and its case rows, not the bodies behind them.
    fn lay_cases(
        &mut self,
        word: usize,
        cases: &[Case],
        default: Option<&[Statement]>,
        follow: RowNumber,
    ) {
        let mut start = ahead(self.here(), 1 + cases.len());
        let mut case_rows = Vec::new();
        for case in cases {
            let (op, arg) = operation_fields(case.operation, [CASE_SEND, CASE_FORWARD, CASE_RECV]);
            let next = entry(&case.body, start, follow);
            case_rows.push((case.word, operation_row(op, case.channel, arg, next)));
            start = ahead(start, rows_of_body(&case.body));
        }
        let mut row = Row::new(SELECT);
        row.chan = cases.len() as u8;
        if let Some(body) = default {
            row.arg = 1;
            row.next = entry(body, start, follow);
        }
        self.lay(word, row);
        for (case_word, case_row) in case_rows {
            self.lay(case_word, case_row);
        }
    }
}

fn operation_row(op: u8, channel: Channel, arg: u16, next: RowNumber) -> Row {
    let mut row = Row::new(op);
    row.chan = channel.map_or(NIL, |channel| channel.0);
    row.arg = arg;
    row.next = next;
    row
}

/// The op, of those for send, forward and recv, and the arg of an operation.
fn operation_fields(operation: Operation, ops: [u8; 3]) -> (u8, u16) {
    match operation {
        Operation::Send(value) => (ops[0], value),
        Operation::Forward => (ops[1], 0),
        Operation::Recv => (ops[2], 0),
    }
}

/// The row a body's field names: its first row, or where an empty one leads.
fn entry(body: &[Statement], start: RowNumber, after: RowNumber) -> RowNumber {
    if body.is_empty() {
        after
    } else {
        start
    }
}

fn ahead(row: RowNumber, rows: usize) -> RowNumber {
    RowNumber(row.0 + rows as u16)
}

fn rows_of_body(body: &[Statement]) -> usize {
    body.iter().map(rows_of).sum()
}

fn rows_of(statement: &Statement) -> usize {
    let inside = match &statement.action {
        Action::Operate(..) | Action::Close(_) | Action::Stop => 0,
        Action::Range(_, body) | Action::Repeat(_, body) => rows_of_body(body),
        Action::Ifok(first, second) => rows_of_body(first) + rows_of_body(second),
        Action::Select(cases, default) => {
            let in_cases: usize = cases.iter().map(|case| 1 + rows_of_body(&case.body)).sum();
            in_cases + default.as_deref().map_or(0, rows_of_body)
        }
    };
    1 + inside
}

#[cfg(test)]
mod tests {
    use super::super::{Image, IMAGE_LIMIT};
    use super::*;
    use crate::text;

    fn rows(text: &str) -> Vec<[u16; 5]> {
        let job = text::read(text.as_bytes()).unwrap();
        let layout = Layout::of(&job);
        let fields = |row: &Row| {
            let (op, chan) = (u16::from(row.op), u16::from(row.chan));
            [op, chan, row.arg, row.next.0, row.other.0]
        };
        layout.rows.iter().map(fields).collect()
    }

    #[test]
    fn the_smallest_image() {
        let job = text::read(b"task end").unwrap();
        let mut buffer = [7; 20];
        assert_eq!(Layout::of(&job).write(&mut buffer), Ok(18));
        let image = [12, 0, 0, 0, 0, 0, 0, 0, 0, 0, 1, 0, 0, 1, 10, 0, 0x5A, 1];
        assert_eq!(buffer[..18], image);
        assert_eq!(buffer[18..], [7, 7]);
        let mut short = [7; 17];
        assert_eq!(Layout::of(&job).write(&mut short), refuse(11, 18));
        assert_eq!(short, [7; 17]);
    }

    #[test]
    fn an_empty_loop_body_names_the_loop() {
        assert_eq!(
            rows("chan 0 task repeat 3 range 0 end end end"),
            [[6, 0, 3, 1, 2], [5, 0, 0, 1, 0], [12, 0, 0, 0, 0]]
        );
    }

    #[test]
    fn branches_lead_past_their_block() {
        assert_eq!(
            rows("chan 1 task repeat 2 ifok stop else close nil end end end"),
            [
                [6, 0, 2, 1, 4],
                [7, 0, 0, 2, 3],
                [12, 0, 0, 0, 0],
                [4, 255, 0, 0, 0],
                [12, 0, 0, 0, 0],
            ]
        );
    }

    #[test]
    fn case_rows_come_before_the_bodies() {
        let text = "chan 1 task select case send 0 9 stop case forward nil \
                    case recv 0 repeat 1 end default recv 0 end end";
        assert_eq!(
            rows(text),
            [
                [8, 3, 1, 6, 0],
                [9, 0, 9, 4, 0],
                [10, 255, 0, 7, 0],
                [11, 0, 0, 5, 0],
                [12, 0, 0, 0, 0],
                [6, 1, 1, 5, 7],
                [3, 0, 0, 7, 0],
                [12, 0, 0, 0, 0],
            ]
        );
    }

    #[test]
    fn the_longest_image() {
        let mut text = "chan 16 ".repeat(16);
        text.push_str(&"task end ".repeat(15));
        text.push_str(&format!("task {}end", "stop ".repeat(1_008)));
        let job = text::read(text.as_bytes()).unwrap();
        let mut buffer = vec![0; IMAGE_LIMIT];
        assert_eq!(Layout::of(&job).write(&mut buffer), Ok(IMAGE_LIMIT));
        assert!(Image::open(&buffer).is_ok());
    }
}
