//! The test of the day (refusal 5), made first in every later call.

use super::book::{stretch_width, BOUGHT, CASH, CREATED, GOT, LOTS, REDEEMED, STRETCH_HEAD};
use super::opening::sizes_fit;
use super::range;
use super::refusal::{Refusal, UNSOUND_DAY};
use super::types::{first_faulty_component, Day, MAX_COMPONENTS};

/// Refuses a day that breaks a test of opening or a bound on its prices,
/// counters or the fund's own lots.
pub fn test_day(day: &Day, book: &[u64], prices: &[u64]) -> Result<(), Refusal> {
    if is_sound(day, book, prices) {
        Ok(())
    } else {
        Err(Refusal::new(UNSOUND_DAY))
    }
}

/// Whether the day is sound and stays so whatever the calls: there is room
/// for all the units that the ceiling still lets be created.
pub(super) fn stays_sound(day: &Day, book: &[u64], prices: &[u64]) -> bool {
    if !is_sound(day, book, prices) {
        return false;
    }
    let width = stretch_width(day.count as usize);
    let (mut units, mut created) = (0, 0);
    for stretch in book.chunks_exact(width) {
        units += stretch[width - LOTS..].iter().sum::<u64>();
        created += stretch[CREATED];
    }
    units + (range::COUNTER_MAX - created) <= range::UNIT_TOTAL_MAX
}

fn is_sound(day: &Day, book: &[u64], prices: &[u64]) -> bool {
    sizes_fit(day.accounts, day.count, book.len(), prices.len())
        && day.table.first_fault().is_none()
        && day.fund.in_range()
        && components_fit(day)
        && prices.iter().all(|price| price <= range::PRICE.end())
        && fund_stretch_is_plain(&book[..stretch_width(day.count as usize)])
        && totals_fit(day.count as usize, book)
}

fn components_fit(day: &Day) -> bool {
    let listed = day.listed().iter().copied();
    first_faulty_component(day.fund.first_code, &day.table, listed).is_none()
}

/// The fund creates, redeems, buys and gets nothing, and holds no units.
fn fund_stretch_is_plain(stretch: &[u64]) -> bool {
    let (head, lots) = stretch.split_at(STRETCH_HEAD);
    let (stock, units) = lots.split_at(lots.len() - LOTS);
    let moved = stock
        .chunks_exact(LOTS)
        .fold(0, |seen, lots| seen | lots[BOUGHT] | lots[GOT]);
    head[CREATED] == 0 && head[REDEEMED] == 0 && moved == 0 && units.iter().all(|&lot| lot == 0)
}

/// Above every bound on a total: a column that reaches it is over its bound,
/// and below it neither a column's next sum nor three columns wrap.
const FAR_OVER: u64 = 1 << 62;

/// One pass over the book adds up each column of the stretches.
fn totals_fit(count: usize, book: &[u64]) -> bool {
    let mut totals = [0u64; stretch_width(MAX_COMPONENTS)];
    let totals = &mut totals[..stretch_width(count)];
    let mut seen = 0;
    for stretch in book.chunks_exact(totals.len()) {
        for (total, &number) in totals.iter_mut().zip(stretch) {
            *total = total.wrapping_add(number);
            seen |= *total | number;
        }
    }
    seen < FAR_OVER && column_totals_fit(totals)
}

fn column_totals_fit(totals: &[u64]) -> bool {
    let (head, lots) = totals.split_at(STRETCH_HEAD);
    let (stock, units) = lots.split_at(lots.len() - LOTS);
    let total = |lots: &[u64]| lots.iter().sum::<u64>();
    head[CASH] <= range::CASH_TOTAL_MAX
        && head[CREATED] <= range::COUNTER_MAX
        && head[REDEEMED] <= range::COUNTER_MAX
        && stock
            .chunks_exact(LOTS)
            .all(|lots| total(lots) <= range::LINE_TOTAL_MAX)
        && total(units) <= range::UNIT_TOTAL_MAX
}
