//! Creation of baskets of units.

use super::book::{
    self, fund_and_account, handable, lots, lots_mut, stretch, CASH, CREATED, GOT, OLD,
};
use super::flags::yes;
use super::flags::FlagColumn::{Shanghai, ShortageInCash, StockMoves};
use super::order_lists::{Lengths, Lists};
use super::order_writer::OrderWriter;
use super::orders::{test_order, with_premium, Kind, Terms};
use super::refusal::{Counts, Refusal, Reply, CASH_RATIO, SHORT_OF_CASH, SHORT_OF_STOCK};
use super::soundness::test_day;
use super::types::{Component, Day};
use super::value::value_on_sound_day;

/// Creates `units` for the account and writes the records and the reports to
/// the lent lists; the reply has their counts.
pub fn create(
    day: &Day,
    book: &mut [u64],
    prices: &[u64],
    account: u64,
    units: u64,
    lists: Lists<'_>,
) -> Reply {
    test_day(day, book, prices)
        .and_then(|()| create_on_sound_day(day, book, prices, account, units, lists))
        .into()
}

/// The reply that a creation with lists of such lengths would give.
pub fn test_creation(
    day: &Day,
    book: &[u64],
    prices: &[u64],
    account: u64,
    units: u64,
    lengths: Lengths,
) -> Reply {
    test_day(day, book, prices)
        .and_then(|()| test_on_sound_day(day, book, prices, account, units, lengths))
        .map(|terms| terms.counts())
        .into()
}

pub(super) fn create_on_sound_day(
    day: &Day,
    book: &mut [u64],
    prices: &[u64],
    account: u64,
    units: u64,
    lists: Lists<'_>,
) -> Result<Counts, Refusal> {
    let lengths = lists.as_ref().map(|list| list.len());
    let terms = test_on_sound_day(day, book, prices, account, units, lengths)?;
    let width = book::stretch_width(day.count as usize);
    let (fund, own) = fund_and_account(book, width, account);
    let mut writer = OrderWriter::start(Kind::Creation, day.fund.first_code, units, lists);
    hand_in_stock(day, terms.baskets, fund, own, &mut writer);
    own[CASH] -= terms.cash();
    fund[CASH] += terms.cash();
    own[CREATED] += units;
    lots_mut(own, day.count as usize)[GOT] += units;
    Ok(writer.finish(&terms))
}

/// Moves what is there of the stock to the fund's old lots.
fn hand_in_stock(
    day: &Day,
    baskets: u64,
    fund: &mut [u64],
    own: &mut [u64],
    writer: &mut OrderWriter<'_>,
) {
    for (line, component) in day.listed().iter().enumerate() {
        if !yes(day.row_of(component), StockMoves) {
            continue;
        }
        let lots = lots_mut(own, line);
        let handed = handable(lots).min(baskets * component.quantity);
        if handed > 0 {
            book::hand_in(lots, handed);
            lots_mut(fund, line)[OLD] += handed;
            writer.stock(component.code, handed);
        }
    }
}

pub(super) fn test_on_sound_day(
    day: &Day,
    book: &[u64],
    prices: &[u64],
    account: u64,
    units: u64,
    lengths: Lengths,
) -> Result<Terms, Refusal> {
    let baskets = test_order(day, book, Kind::Creation, account, units)?;
    let own = stretch(book, book::stretch_width(day.count as usize), account);
    let (terms, substituted) = add_up(day, own, prices, baskets)?;
    if let Some(worth) = substituted {
        let value = value_on_sound_day(day, prices)?;
        if passes_ratio(worth, units, value, day.fund.max_cash_ratio) {
            return Err(Refusal::new(CASH_RATIO));
        }
    }
    if own[CASH] < terms.cash() {
        return Err(Refusal::new(SHORT_OF_CASH));
    }
    terms.test_room(lengths)?;
    Ok(terms)
}

/// The terms of the order and, where anything is missing under flags short in
/// cash, the worth of all that is missing. Refuses at the first component that is
/// short under another flag.
fn add_up(
    day: &Day,
    own: &[u64],
    prices: &[u64],
    baskets: u64,
) -> Result<(Terms, Option<u64>), Refusal> {
    let mut terms = Terms::new(baskets);
    let mut substituted = None;
    for (line, (component, &price)) in day.listed().iter().zip(prices).enumerate() {
        let row = day.row_of(component);
        if !yes(row, StockMoves) {
            terms.add_cash(yes(row, Shanghai), fixed_cash(component, baskets));
            continue;
        }
        let need = baskets * component.quantity;
        let there = handable(lots(own, line));
        terms.stock_lines += u64::from(need.min(there) > 0);
        if there < need {
            if !yes(row, ShortageInCash) {
                return Err(Refusal::at(SHORT_OF_STOCK, line));
            }
            let worth = (need - there) * price;
            terms.add_cash(yes(row, Shanghai), with_premium(worth, component.premium));
            *substituted.get_or_insert(0) += worth;
        }
    }
    Ok((terms, substituted))
}

/// Cash of a component that moves no stock: an unused premium is 0.
fn fixed_cash(component: &Component, baskets: u64) -> u64 {
    with_premium(baskets * component.amount, component.premium)
}

/// Whether the worth of the missing stock is above its share of the units'
/// value: thousandths of a yuan against ten-thousandths times a rate.
fn passes_ratio(worth: u64, units: u64, value: u64, ratio: u64) -> bool {
    let allowed = u128::from(units * value) * u128::from(ratio);
    u128::from(worth) * 1_000_000 > allowed
}
