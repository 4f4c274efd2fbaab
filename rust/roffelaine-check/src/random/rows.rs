//! Rows for the driver: calls with any parts of the runs, and rows that name no
//! call.

use super::calls::any_call;
use super::{Rng, Scale};
use crate::engine::{Engine, Lent, Model};
use crate::flat::{answers_length, row_of};
use crate::model::{Lengths, PerList, ANSWER_NUMBERS};

/// Some rows, and runs to go with them. The arguments fit the day that the
/// calls before them leave.
pub fn wild_rows(rng: &mut Rng, lent: &mut Lent, scale: Scale) -> Vec<u64> {
    let longest = lent.runs.lengths();
    let lengths = longest.map(|longest| run_length(rng, longest));
    let mut after = lent.clone();
    lent.runs = lengths.map(|length| rng.numbers(length));
    let mut rows = Vec::new();
    for _ in 0..rng.between(0, 24) {
        let call = any_call(rng, &after, scale);
        Model.call(&call, &mut after);
        let starts = part_starts(rng, lengths, call.lengths());
        let mut row = row_of(&call, starts).unwrap_or_default();
        if rng.one_in(12) {
            let at = rng.index(row.len());
            row[at] = rng.pick(&[0, 1, 2, 3, 4, 5, 6, 1 << 32, 1 << 63, u64::MAX]);
        }
        rows.extend(row);
    }
    if rng.one_in(16) {
        let odd = rng.index(rows.len() + 4);
        rows.resize(odd, 3);
    }
    rows
}

/// Mostly longer than the longest list of an order.
fn run_length(rng: &mut Rng, longest: usize) -> usize {
    match rng.below(8) {
        0 => rng.index(longest),
        _ => rng.between(longest as u64, 3 * longest as u64) as usize,
    }
}

/// Where the parts of such lengths start: mostly in the runs, at times one of
/// them at the end of its run or past it.
fn part_starts(rng: &mut Rng, runs: Lengths, parts: Lengths) -> PerList<usize> {
    let odd = rng.index(12);
    let mut list = 0;
    runs.zip(parts).map(|(run, part)| {
        list += 1;
        match list == odd {
            true => odd_start(rng, run, part),
            false => rng.index(run.saturating_sub(part) + 1),
        }
    })
}

fn odd_start(rng: &mut Rng, run: usize, part: usize) -> usize {
    match rng.below(5) {
        0 => run,
        1 => run.wrapping_sub(part),
        2 => run.wrapping_sub(part).wrapping_add(1),
        3 => rng.pick(&[usize::MAX, usize::MAX - part, 1 << 63]),
        _ => rng.index(run + 1),
    }
}

/// As many answers as the rows need, at times a number more or less.
pub fn wild_answers_length(rng: &mut Rng, rows: &[u64]) -> usize {
    let length = answers_length(rows);
    match rng.below(24) {
        0 => length + 1,
        1 => length.saturating_sub(1),
        2 => length + ANSWER_NUMBERS,
        _ => length,
    }
}
