//! The image check (document 01, refusals 21 to 28 of "What comes back"), on
//! any byte slice: first the trailer, then the rows, capacities and first rows
//! it spans.

use super::{
    low_first, Counts, Image, Row, CAPACITY_LIMIT, CASE_FORWARD, CASE_LIMIT, CASE_RECV, CASE_SEND,
    CHANNEL_LIMIT, CLOSE, DEPTH_LIMIT, FORWARD, IFOK, MARK, NIL, RANGE, RECV, REPEAT, ROW_LIMIT,
    SELECT, SEND, STOP, TASK_LIMIT, TRAILER_BYTES, VERSION,
};
use crate::numbers::{refuse, Refusal, RowNumber};

/// 21 to 25: the counts of the trailer at the end of `slice`, all of whose
/// image lies in `slice`.
pub fn trailer(slice: &[u8]) -> Result<Counts, Refusal> {
    if slice.len() < TRAILER_BYTES {
        return refuse(21, 0);
    }
    let (ahead, trailer) = slice.split_at(slice.len() - TRAILER_BYTES);
    if trailer[6] != MARK {
        return refuse(22, 0);
    }
    if trailer[7] != VERSION {
        return refuse(23, 0);
    }
    let counts = Counts {
        rows: usize::from(low_first(trailer)),
        channels: usize::from(trailer[2]),
        tasks: usize::from(trailer[3]),
    };
    let distance = usize::from(low_first(&trailer[4..]));
    if !counts_hold(counts) || distance != counts.distance() {
        return refuse(24, 0);
    }
    if distance > ahead.len() {
        return refuse(25, 0);
    }
    Ok(counts)
}

fn counts_hold(counts: Counts) -> bool {
    (1..=ROW_LIMIT).contains(&counts.rows)
        && counts.channels <= CHANNEL_LIMIT
        && (1..=TASK_LIMIT).contains(&counts.tasks)
}

/// 26 to 28: the first bad row, else channel, else task.
pub fn contents(image: &Image) -> Result<(), Refusal> {
    let rows = 0..image.counts.rows as u16;
    if let Some(bad) = rows.map(RowNumber).find(|row| is_bad_row(image, *row)) {
        return refuse(26, bad.index());
    }
    let over = |channel: &_| image.capacity(*channel) > CAPACITY_LIMIT;
    if let Some(bad) = image.channels().find(over) {
        return refuse(27, bad.index());
    }
    let astray = |task: &_| !image.is_target(image.first_row(*task));
    if let Some(bad) = image.tasks().find(astray) {
        return refuse(28, bad.index());
    }
    Ok(())
}

fn is_bad_row(image: &Image, number: RowNumber) -> bool {
    let row = image.row(number);
    !chan_holds(image, row)
        || !arg_holds(row)
        || !targets_hold(image, row)
        || (row.op == SELECT && cases_behind(image, number, row.chan) < row.chan)
        || (row.is_case() && !is_case_of_a_select(image, number))
}

/// The op is one of the table, and so is the chan field for it.
fn chan_holds(image: &Image, row: Row) -> bool {
    match row.op {
        SEND..=RANGE | CASE_SEND..=CASE_RECV => {
            row.chan == NIL || usize::from(row.chan) < image.counts.channels
        }
        REPEAT => row.chan < DEPTH_LIMIT,
        SELECT => row.chan <= CASE_LIMIT,
        IFOK | STOP => row.chan == 0,
        _ => false,
    }
}

fn arg_holds(row: Row) -> bool {
    match row.op {
        SEND | CASE_SEND => true,
        REPEAT => row.arg <= u16::from(u8::MAX),
        SELECT => row.arg <= 1,
        _ => row.arg == 0,
    }
}

fn targets_hold(image: &Image, row: Row) -> bool {
    let (uses_next, uses_other) = match row.op {
        SEND | FORWARD | RECV | CLOSE => (true, false),
        CASE_SEND | CASE_FORWARD | CASE_RECV => (true, false),
        RANGE | REPEAT | IFOK => (true, true),
        SELECT => (row.arg == 1, false),
        _ => (false, false),
    };
    target_holds(image, uses_next, row.next) && target_holds(image, uses_other, row.other)
}

fn target_holds(image: &Image, used: bool, target: RowNumber) -> bool {
    if used {
        image.is_target(target)
    } else {
        target == RowNumber(0)
    }
}

/// How many case rows, up to `limit`, follow `select` at once.
fn cases_behind(image: &Image, select: RowNumber, limit: u8) -> u8 {
    let is_case = |steps: &u8| {
        let inside = select.index() + usize::from(*steps) < image.counts.rows;
        inside && image.row_behind(select, *steps).is_case()
    };
    (1..=limit).take_while(is_case).count() as u8
}

/// Whether the case row `number` is one of those a select ahead of it names.
fn is_case_of_a_select(image: &Image, number: RowNumber) -> bool {
    let ahead = (0..number.0).rev().map(RowNumber);
    let mut no_cases = ahead.filter(|row| !image.row(*row).is_case());
    no_cases.next().is_some_and(|nearest| {
        let row = image.row(nearest);
        row.op == SELECT && number.0 - nearest.0 <= u16::from(row.chan)
    })
}

#[cfg(test)]
mod tests {
    use super::super::image_of;
    use super::*;
    use crate::generate::Random;
    use crate::text;

    fn image(text: &str) -> Vec<u8> {
        image_of(&text::read(text.as_bytes()).unwrap())
    }

    fn refusal(slice: &[u8]) -> Option<(u8, usize)> {
        let answer = Image::open(slice);
        answer.err().map(|refusal| (refusal.number, refusal.place))
    }

    /// What is refused once the byte `back` from the end of the image is `byte`.
    fn changed(image: &[u8], back: usize, byte: u8) -> Option<(u8, usize)> {
        let mut image = image.to_vec();
        let at = image.len() - back;
        image[at] = byte;
        refusal(&image)
    }

    #[test]
    fn the_trailer() {
        let good = image("chan 3 task stop end");
        assert_eq!(good.len(), 27);
        assert_eq!(refusal(&good), None);
        assert_eq!(refusal(&good[20..]), Some((21, 0)));
        assert_eq!(changed(&good, 2, 0), Some((22, 0)));
        assert_eq!(changed(&good, 1, 2), Some((23, 0)));
        assert_eq!(changed(&good, 8, 0), Some((24, 0)));
        assert_eq!(changed(&good, 7, 4), Some((24, 0)));
        assert_eq!(changed(&good, 6, 17), Some((24, 0)));
        assert_eq!(changed(&good, 5, 0), Some((24, 0)));
        assert_eq!(changed(&good, 4, 1), Some((24, 0)));
        assert_eq!(refusal(&good[1..]), Some((25, 0)));
    }

    #[test]
    fn bytes_ahead_are_not_read() {
        let mut slice = vec![0x5A; 33];
        slice.extend(image("chan 3 task stop end"));
        assert_eq!(refusal(&slice), None);
    }

    #[test]
    fn capacities_and_first_rows() {
        let good = image("chan 3 task stop end");
        assert_eq!(changed(&good, 11, 17), Some((27, 0)));
        assert_eq!(changed(&good, 10, 2), Some((28, 0)));
        let select = image("chan 3 task end task select case recv 0 end end");
        assert_eq!(changed(&select, 10, 2), Some((28, 1)));
    }

    #[test]
    fn rows() {
        let text = "chan 0 task send 0 1 repeat 2 end select case recv 0 case recv 0 end end";
        let good = image(text);
        let tail = good.len();
        let byte =
            |row: usize, field: usize, value: u8| changed(&good, tail - 8 * row - field, value);
        assert_eq!(byte(0, 0, 0), Some((26, 0)));
        assert_eq!(byte(0, 0, 13), Some((26, 0)));
        assert_eq!(byte(0, 1, 1), Some((26, 0)));
        assert_eq!(byte(0, 1, 255), None);
        assert_eq!(byte(0, 3, 255), None);
        assert_eq!(byte(0, 4, 6), Some((26, 0)));
        assert_eq!(byte(0, 4, 3), Some((26, 0)));
        assert_eq!(byte(0, 6, 1), Some((26, 0)));
        assert_eq!(byte(1, 1, 5), None);
        assert_eq!(byte(1, 1, 6), Some((26, 1)));
        assert_eq!(byte(1, 3, 1), Some((26, 1)));
        assert_eq!(byte(2, 1, 1), Some((26, 4)));
        assert_eq!(byte(2, 1, 3), Some((26, 2)));
        assert_eq!(byte(2, 2, 1), None);
        assert_eq!(byte(2, 2, 2), Some((26, 2)));
        assert_eq!(byte(2, 4, 1), Some((26, 2)));
        assert_eq!(byte(3, 2, 1), Some((26, 3)));
        assert_eq!(byte(5, 0, 11), Some((26, 3)));
    }

    #[test]
    fn any_slice_has_an_answer() {
        let good = image("chan 1 task select case send 0 1 case recv 0 end ifok end end");
        let mut random = Random::new(1);
        for _ in 0..20_000 {
            let mut slice = good.clone();
            for _ in 0..1 + random.below(3) {
                let at = random.below(slice.len() as u64) as usize;
                slice[at] = random.below(256) as u8;
            }
            slice.drain(..random.below(4) as usize);
            if let Some((number, place)) = refusal(&slice) {
                assert!((21..=28).contains(&number));
                assert!(place == 0 || number >= 26);
            }
        }
    }
}
