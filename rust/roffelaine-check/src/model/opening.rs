//! Opening the day (refusals 1, 21, 2, 3, 4).

use super::book::{book_length, holdings_length, stretch_width, LOTS, STRETCH_HEAD};
use super::flags::FlagTable;
use super::range;
use super::refusal::{Refusal, COMPONENT, FUND_FIELD, SIZES, TOTAL};
use super::types::{
    first_faulty_component, Component, Day, Fund, COMPONENT_NUMBERS, MAX_COMPONENTS,
};

/// What an opening is given, besides the book and prices that it fills.
#[derive(Clone, Copy, Debug)]
pub struct Opening<'a> {
    pub accounts: u64,
    pub count: u64,
    pub fund: Fund,
    /// Flat run of a flag table; none is given where it is empty.
    pub table: &'a [u64],
    /// Flat run of components, 6 numbers each.
    pub components: &'a [u64],
    /// For each account its cash and then N+1 holdings.
    pub holdings: &'a [u64],
}

/// Opens the day: holdings go to the old lots, all else starts at 0.
pub fn open(opening: &Opening<'_>, book: &mut [u64], prices: &mut [u64]) -> Result<Day, Refusal> {
    let table = test_lengths(opening, book.len(), prices.len())?.tested()?;
    if !opening.fund.in_range() {
        return Err(Refusal::new(FUND_FIELD));
    }
    let first_code = opening.fund.first_code;
    if let Some(place) = first_faulty_component(first_code, &table, opening.listed()) {
        return Err(Refusal::at(COMPONENT, place));
    }
    if let Some(place) = first_faulty_total(opening.count as usize, opening.holdings) {
        return Err(Refusal::at(TOTAL, place));
    }
    fill_book(opening.count as usize, opening.holdings, book);
    prices.fill(0);
    Ok(opening.day(table))
}

impl Opening<'_> {
    fn listed(&self) -> impl Iterator<Item = Component> + '_ {
        self.components
            .chunks_exact(COMPONENT_NUMBERS)
            .map(Component::from_numbers)
    }

    fn day(&self, table: FlagTable) -> Day {
        let mut day = Day::blank();
        day.accounts = self.accounts;
        day.count = self.count;
        day.fund = self.fund;
        day.table = table;
        for (place, component) in day.components.iter_mut().zip(self.listed()) {
            *place = component;
        }
        day
    }
}

/// Whether A and N are in range and the book and prices have their lengths.
pub(super) fn sizes_fit(accounts: u64, count: u64, book: usize, prices: usize) -> bool {
    range::ACCOUNTS.contains(&accounts)
        && range::COMPONENTS.contains(&count)
        && book == book_length(accounts as usize, count as usize)
        && prices == count as usize
}

/// Refusal 1; gives the table.
fn test_lengths(opening: &Opening<'_>, book: usize, prices: usize) -> Result<FlagTable, Refusal> {
    let (accounts, count) = (opening.accounts, opening.count);
    let fit = sizes_fit(accounts, count, book, prices)
        && opening.components.len() == COMPONENT_NUMBERS * count as usize
        && opening.holdings.len() == holdings_length(accounts as usize, count as usize);
    let table = FlagTable::given(opening.table).filter(|_| fit);
    table.ok_or(Refusal::new(SIZES))
}

/// The lowest line whose total is over its bound, or the unit's line where the
/// fund holds units; N+1 stands for cash.
fn first_faulty_total(count: usize, holdings: &[u64]) -> Option<usize> {
    let mut totals = [0u64; MAX_COMPONENTS + 2];
    let totals = &mut totals[..count + 2];
    for account in holdings.chunks_exact(count + 2) {
        for (total, &held) in totals.iter_mut().zip(account) {
            *total = total.saturating_add(held);
        }
    }
    let (cash, lines) = (totals[0], &totals[1..]);
    if let Some(line) = lines[..count]
        .iter()
        .position(|&total| total > range::LINE_TOTAL_MAX)
    {
        return Some(line);
    }
    let fund_units = holdings[count + 1];
    if lines[count] > range::LINE_TOTAL_MAX || fund_units > 0 {
        return Some(count);
    }
    (cash > range::CASH_TOTAL_MAX).then_some(count + 1)
}

/// Holdings go to the old lots; counters and the other lots are 0.
fn fill_book(count: usize, holdings: &[u64], book: &mut [u64]) {
    let stretches = book.chunks_exact_mut(stretch_width(count));
    for (stretch, account) in stretches.zip(holdings.chunks_exact(count + 2)) {
        let (head, lots) = stretch.split_at_mut(STRETCH_HEAD);
        head.copy_from_slice(&[account[0], 0, 0]);
        for (lots, &held) in lots.chunks_exact_mut(LOTS).zip(&account[1..]) {
            lots.copy_from_slice(&[held, 0, 0]);
        }
    }
}
