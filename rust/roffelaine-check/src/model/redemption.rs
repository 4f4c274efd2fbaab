//! Redemption of baskets of units.

use super::book::{
    self, fund_and_account, handable, lots, lots_mut, stretch, CASH, GOT, OLD, REDEEMED,
};
use super::flags::yes;
use super::flags::FlagColumn::{Shanghai, StockMoves};
use super::order_lists::{Lengths, Lists};
use super::order_writer::OrderWriter;
use super::orders::{less_discount, test_order, Kind, Terms};
use super::refusal::{Counts, Refusal, Reply, FUND_SHORT, SHORT_OF_STOCK};
use super::soundness::test_day;
use super::types::{Component, Day};

/// Redeems `units` of the account and writes the records and the reports to
/// the lent lists; the reply has their counts.
pub fn redeem(
    day: &Day,
    book: &mut [u64],
    prices: &[u64],
    account: u64,
    units: u64,
    lists: Lists<'_>,
) -> Reply {
    test_day(day, book, prices)
        .and_then(|()| redeem_on_sound_day(day, book, account, units, lists))
        .into()
}

/// The reply that a redemption with lists of such lengths would give.
pub fn test_redemption(
    day: &Day,
    book: &[u64],
    prices: &[u64],
    account: u64,
    units: u64,
    lengths: Lengths,
) -> Reply {
    test_day(day, book, prices)
        .and_then(|()| test_on_sound_day(day, book, account, units, lengths))
        .map(|terms| terms.counts())
        .into()
}

pub(super) fn redeem_on_sound_day(
    day: &Day,
    book: &mut [u64],
    account: u64,
    units: u64,
    lists: Lists<'_>,
) -> Result<Counts, Refusal> {
    let lengths = lists.as_ref().map(|list| list.len());
    let terms = test_on_sound_day(day, book, account, units, lengths)?;
    let width = book::stretch_width(day.count as usize);
    let (fund, own) = fund_and_account(book, width, account);
    let mut writer = OrderWriter::start(Kind::Redemption, day.fund.first_code, units, lists);
    deliver_stock(day, terms.baskets, fund, own, &mut writer);
    fund[CASH] -= terms.cash();
    own[CASH] += terms.cash();
    own[REDEEMED] += units;
    book::hand_in(lots_mut(own, day.count as usize), units);
    Ok(writer.finish(&terms))
}

/// Moves the stock in full from the fund's old lots to the account's got lots.
fn deliver_stock(
    day: &Day,
    baskets: u64,
    fund: &mut [u64],
    own: &mut [u64],
    writer: &mut OrderWriter<'_>,
) {
    for (line, component) in day.listed().iter().enumerate() {
        let delivered = baskets * component.quantity;
        if yes(day.row_of(component), StockMoves) && delivered > 0 {
            lots_mut(fund, line)[OLD] -= delivered;
            lots_mut(own, line)[GOT] += delivered;
            writer.stock(component.code, delivered);
        }
    }
}

pub(super) fn test_on_sound_day(
    day: &Day,
    book: &[u64],
    account: u64,
    units: u64,
    lengths: Lengths,
) -> Result<Terms, Refusal> {
    let baskets = test_order(day, book, Kind::Redemption, account, units)?;
    let width = book::stretch_width(day.count as usize);
    let unit_lots = lots(stretch(book, width, account), day.count as usize);
    if handable(unit_lots) < units {
        return Err(Refusal::new(SHORT_OF_STOCK));
    }
    let fund = stretch(book, width, 0);
    let terms = add_up(day, fund, baskets)?;
    if fund[CASH] < terms.cash() {
        return Err(Refusal::at(FUND_SHORT, day.count as usize));
    }
    terms.test_room(lengths)?;
    Ok(terms)
}

/// The terms of the order; refuses at the first stock that the fund lacks.
fn add_up(day: &Day, fund: &[u64], baskets: u64) -> Result<Terms, Refusal> {
    let mut terms = Terms::new(baskets);
    for (line, component) in day.listed().iter().enumerate() {
        let row = day.row_of(component);
        if !yes(row, StockMoves) {
            terms.add_cash(yes(row, Shanghai), fixed_cash(component, baskets));
            continue;
        }
        let need = baskets * component.quantity;
        if lots(fund, line)[OLD] < need {
            return Err(Refusal::at(FUND_SHORT, line));
        }
        terms.stock_lines += u64::from(need > 0);
    }
    Ok(terms)
}

/// Cash of a component that moves no stock: an unused discount is 0.
fn fixed_cash(component: &Component, baskets: u64) -> u64 {
    less_discount(baskets * component.amount, component.discount)
}
