//! Days changed by hand: broken, or sound but at an edge.

use super::damage::{damage_a_component, damage_fund, damage_length};
use super::tables::{change_a_row, damage_table};
use super::Rng;
use crate::engine::Lent;
use crate::model::{range, stretch_width, Day, LOTS, STRETCH_HEAD};

const CREATED: usize = 1;
const REDEEMED: usize = 2;

/// Changes one thing, or two, so that the day is mostly no longer sound.
pub fn break_day(rng: &mut Rng, lent: &mut Lent) {
    break_one_thing(rng, lent);
    if rng.one_in(6) {
        break_one_thing(rng, lent);
    }
}

fn break_one_thing(rng: &mut Rng, lent: &mut Lent) {
    match rng.below(20) {
        0 => lent.day.accounts = near(rng, lent.day.accounts, &[0, 1, 65, u64::MAX]),
        1 => lent.day.count = near(rng, lent.day.count, &[0, 301, 1 << 32, u64::MAX]),
        2 => damage_length(rng, &mut lent.book),
        3 => damage_length(rng, &mut lent.prices),
        4..=5 => damage_fund(rng, &mut lent.day.fund),
        6..=8 => break_a_component(rng, &mut lent.day),
        9 => break_a_price(rng, &mut lent.prices),
        10..=11 => break_the_fund_stretch(rng, lent),
        12 => wrap_a_total(rng, lent),
        13..=14 => damage_table(rng, &mut lent.day.table),
        // Sound where each component goes with its flag's new row.
        15 => change_a_row(rng, &mut lent.day.table),
        _ => raise_a_total(rng, lent, 1),
    }
}

/// Brings one total or counter to its bound; the day stays sound.
pub fn raise_to_a_bound(rng: &mut Rng, lent: &mut Lent) {
    raise_a_total(rng, lent, 0);
    if let Some(price) = lent.prices.first_mut() {
        if rng.one_in(3) {
            *price = rng.pick(&[0, 1, *range::PRICE.end()]);
        }
    }
}

/// A neighbour of the number, or one of the choices.
fn near(rng: &mut Rng, number: u64, choices: &[u64]) -> u64 {
    match rng.below(3) {
        0 => number.wrapping_add(1),
        1 => number.wrapping_sub(1),
        _ => rng.pick(choices),
    }
}

fn break_a_component(rng: &mut Rng, day: &mut Day) {
    let listed = (day.count as usize).clamp(1, day.components.len());
    let components = &mut day.components[..listed];
    damage_a_component(rng, day.fund.first_code, &day.table, components);
}

fn break_a_price(rng: &mut Rng, prices: &mut [u64]) {
    if !prices.is_empty() {
        let at = rng.index(prices.len());
        prices[at] = rng.pick(&[range::PRICE.end() + 1, 1 << 63, u64::MAX]);
    }
}

/// Gives the fund a counter, a bought or got lot, or units.
fn break_the_fund_stretch(rng: &mut Rng, lent: &mut Lent) {
    let width = width_of(lent);
    let lines = (width - STRETCH_HEAD) / LOTS;
    let place = match rng.below(4) {
        0 => CREATED,
        1 => REDEEMED,
        2 => width - LOTS + rng.index(LOTS),
        _ => STRETCH_HEAD + LOTS * rng.index(lines) + rng.between(1, 2) as usize,
    };
    if let Some(number) = lent.book.get_mut(place) {
        *number = rng.pick(&[1, 1, 7, u64::MAX]);
    }
}

/// The width of a stretch by the lent prices, which say N even where the
/// day's own count was changed.
fn width_of(lent: &Lent) -> usize {
    stretch_width(lent.prices.len())
}

/// Two numbers of one column whose 64-bit sum is small again.
fn wrap_a_total(rng: &mut Rng, lent: &mut Lent) {
    let width = width_of(lent);
    if lent.book.len() < 3 * width {
        return;
    }
    let column = rng.index(width);
    let high = rng.pick(&[u64::MAX, 1 << 63, 1 << 62]);
    lent.book[width + column] = high;
    lent.book[2 * width + column] = high.wrapping_neg();
}

/// Brings the total of cash, a counter or a line to its bound and `over` more.
fn raise_a_total(rng: &mut Rng, lent: &mut Lent, over: u64) {
    let width = width_of(lent);
    if lent.book.len() < 2 * width {
        return;
    }
    let column = pick_a_column(rng, width);
    let (columns, bound) = match column {
        0 => (0..1, range::CASH_TOTAL_MAX),
        CREATED | REDEEMED => (column..column + 1, range::COUNTER_MAX),
        _ => {
            let first = column - (column - STRETCH_HEAD) % LOTS;
            let units = first + LOTS == width;
            let bound = if units {
                range::UNIT_TOTAL_MAX
            } else {
                range::LINE_TOTAL_MAX
            };
            (first..first + LOTS, bound)
        }
    };
    let stretches = lent.book.chunks_exact(width);
    let total = stretches
        .flat_map(|stretch| &stretch[columns.clone()])
        .fold(0u64, |total, &number| total.saturating_add(number));
    let account = rng.between(1, (lent.book.len() / width) as u64 - 1) as usize;
    if let Some(missing) = bound.checked_sub(total) {
        let number = &mut lent.book[account * width + column];
        *number = number.saturating_add(missing + over);
    }
}

/// Any column, the first three and the units' more often than the rest.
fn pick_a_column(rng: &mut Rng, width: usize) -> usize {
    match rng.below(3) {
        0 => rng.index(STRETCH_HEAD),
        1 => width - LOTS + rng.index(LOTS),
        _ => rng.index(width),
    }
}
