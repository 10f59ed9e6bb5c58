//! Replays with what the sentences of request 1 give for them, worked by hand.

use crate::instants::{FIRST_MONDAY as FIRST, LAST_MONDAY as LAST, MONDAY as M, WEEK as W};
use crate::sheets::{self, Row};

/// A replay, and what it must give.
#[derive(Clone, Debug)]
pub struct Worked {
    pub log: Vec<i64>,
    pub sheet: Vec<u8>,
    pub range: (i64, i64),
    /// How many places are lent.
    pub room: usize,
    /// What stands in the places of the weeks, or the number of a refusal.
    pub expected: Result<Vec<i64>, u32>,
}

/// All of them.
pub fn all() -> Vec<Worked> {
    let mut list = Vec::new();
    for (log, spans, start, end, places) in [weeks(), spans(), extremes()].concat() {
        let room = places.len() + 1;
        list.push(Worked { log, sheet: sheet(&spans), range: (start, end), room, expected: Ok(places) });
    }
    let (good, bad) = (sheet(&[(M, M)]), sheet(&[(M, M)])[1..].to_vec());
    for (log, is_good, range, room, number) in refusals() {
        let sheet = if is_good { &good } else { &bad }.clone();
        list.push(Worked { log, sheet, range, room, expected: Err(number) });
    }
    list
}

/// A sheet of spans, whose ids are 0, 1 and so on.
pub fn sheet(spans: &[(i64, i64)]) -> Vec<u8> {
    let rows: Vec<Row> = (0..).zip(spans).map(|(id, (start, end))| Row { id, start: *start, end: *end, marks: 1 }).collect();
    sheets::written(&rows)
}

/// The log, the spans of the records, the range's start and end, and the places.
type Done = (Vec<i64>, Vec<(i64, i64)>, i64, i64, Vec<i64>);

fn weeks() -> Vec<Done> {
    vec![
        // A week takes in its Monday and not the next. An upload at the range's end is outside.
        (vec![M - 1, M, M + W - 1, M + W], vec![], M, M + 2 * W, vec![2, 1]),
        (vec![M + W], vec![], M, M + W, vec![-2]),
        // Equal uploads all count.
        (vec![M, M, M, M + W], vec![], M, M + 2 * W, vec![3, 1]),
        // 1969-12-29 is a Monday; 1969-12-31T23:59:59 and 1970-01-04T23:59:59 are of its week.
        (vec![-1, M - 1], vec![], M - W, M + W, vec![2, -2]),
        (vec![-W - 1], vec![(-1, 0)], M - 3 * W, M, vec![-2, 1, -1]),
        // Reported goes before shut.
        (vec![M + 5], vec![(M, M + 2 * W), (M + W, M + W)], M, M + 3 * W, vec![1, -1, -2]),
        // Equal Mondays are a range of no weeks.
        (vec![0, M], vec![(0, M)], M, M, vec![]),
        (vec![], vec![], M, M, vec![]),
    ]
}

fn spans() -> Vec<Done> {
    let shut = |spans: &[(i64, i64)], start: i64, places: &[i64]| {
        (vec![], spans.to_vec(), start, start + W * places.len() as i64, places.to_vec())
    };
    vec![
        // A span takes in its start and not its end.
        shut(&[(M, M + W)], M - W, &[-2, -1, -2]),
        shut(&[(M - 1, M + W + 1)], M - W, &[-1, -1, -1]),
        shut(&[(M - 1, M)], M - W, &[-1, -2]),
        shut(&[(M + W, M + W + 1)], M, &[-2, -1]),
        // One with its end at or before its start touches the week of its start.
        shut(&[(M, M)], M - W, &[-2, -1]),
        shut(&[(M, M - 1)], M - W, &[-2, -1]),
        shut(&[(M + W - 1, i64::MIN)], M - W, &[-2, -1]),
        shut(&[(M + W, M - W)], M - W, &[-2, -2]),
        shut(&[(M - W - 1, M - W - 1)], M - W, &[-2, -2]),
        // Spans that begin before the range or end after it.
        shut(&[(M - 5 * W, M + 1)], M, &[-1, -2]),
        shut(&[(M + W + 5, M + 5 * W)], M, &[-2, -1]),
        shut(&[(i64::MIN, i64::MAX)], M, &[-1, -1]),
        shut(&[(i64::MIN, M)], M, &[-2]),
        shut(&[(M + W, i64::MAX)], M, &[-2]),
        // The records need not be in the order of their starts.
        shut(&[(M + 2 * W, M + 2 * W + 1), (M, M + 1), (M + W, M)], M, &[-1, -1, -1]),
    ]
}

/// The first and the last weeks of signed 64-bit numbers.
fn extremes() -> Vec<Done> {
    let log = vec![i64::MIN, FIRST, FIRST + W, LAST - 1, LAST, i64::MAX];
    vec![
        (log.clone(), vec![(i64::MIN, FIRST)], FIRST, FIRST + 3 * W, vec![1, 1, -2]),
        (log, vec![(LAST - W - 1, i64::MIN), (i64::MAX, i64::MAX)], LAST - 3 * W, LAST, vec![-2, -1, 1]),
        (vec![], vec![(i64::MAX, i64::MIN), (i64::MIN, i64::MIN)], LAST - W, LAST, vec![-2]),
        (vec![], vec![(i64::MIN, i64::MAX)], FIRST, FIRST + W, vec![-1]),
        (vec![], vec![], FIRST, FIRST, vec![]),
        (vec![], vec![], LAST, LAST, vec![]),
    ]
}

/// The log, whether the sheet is good, the range, how many places are lent, and the answer.
type Refused = (Vec<i64>, bool, (i64, i64), usize, u32);

fn refusals() -> Vec<Refused> {
    vec![
        // In their order.
        (vec![1, 0], false, (M, M + 1), 0, 30),
        (vec![0, 0], false, (M, M + 1), 0, 31),
        (vec![0, 0], false, (M, M + W), 0, 32),
        (vec![0, 0], true, (M, M + W), 0, 33),
        // The whole log is judged, also outside the range, and where the range is empty; so is the sheet.
        (vec![-5 * W, -6 * W], true, (M, M + W), 1, 30),
        (vec![0, 1, 2, 1], true, (M, M), 1, 30),
        (vec![], false, (M, M), 0, 32),
        // Not Mondays, and an end before the start.
        (vec![], true, (-M, M), 9, 31),
        (vec![], true, (0, W), 9, 31),
        (vec![], true, (M + W, M), 9, 31),
        (vec![], true, (i64::MIN, i64::MAX), 9, 31),
        (vec![], true, (LAST, FIRST), 9, 31),
        // The seconds pass 2^63, and the weeks 2^32.
        (vec![], true, (FIRST, LAST), 9, 33),
        (vec![], true, (M, M + (W << 32)), 9, 33),
        (vec![], true, (M, M + 4 * W), 3, 33),
    ]
}
