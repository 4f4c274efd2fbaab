//! A trade between two accounts.

use super::book::{self, lots, lots_mut, sellable, stretch, stretch_mut, BOUGHT, CASH};
use super::range;
use super::refusal::{
    Refusal, Reply, ACCOUNT, NO_SUCH_LINE, QUANTITY_OR_PRICE, SHORT_OF_CASH, SHORT_OF_STOCK,
};
use super::soundness::test_day;
use super::types::Day;

/// The terms of a trade; line N is the unit.
#[derive(Clone, Copy, Debug, PartialEq, Eq)]
pub struct Trade {
    pub line: u64,
    pub quantity: u64,
    pub price: u64,
    pub seller: u64,
    pub buyer: u64,
}

/// Moves stock or units from seller to buyer and cash the other way.
pub fn trade(day: &Day, book: &mut [u64], prices: &[u64], trade: &Trade) -> Reply {
    test_day(day, book, prices)
        .and_then(|()| trade_on_sound_day(day, book, trade))
        .into()
}

pub(super) fn trade_on_sound_day(
    day: &Day,
    book: &mut [u64],
    trade: &Trade,
) -> Result<u64, Refusal> {
    let refuse = |number| Err(Refusal::new(number));
    if trade.line > day.count {
        return refuse(NO_SUCH_LINE);
    }
    if !range::TRADE_QUANTITY.contains(&trade.quantity) || !range::PRICE.contains(&trade.price) {
        return refuse(QUANTITY_OR_PRICE);
    }
    let others = 1..day.accounts;
    let known = others.contains(&trade.seller) && others.contains(&trade.buyer);
    if !known || trade.seller == trade.buyer {
        return refuse(ACCOUNT);
    }
    let width = book::stretch_width(day.count as usize);
    let line = trade.line as usize;
    if trade.quantity > sellable(lots(stretch(book, width, trade.seller), line)) {
        return refuse(SHORT_OF_STOCK);
    }
    let cost = trade.quantity * trade.price;
    if stretch(book, width, trade.buyer)[CASH] < cost {
        return refuse(SHORT_OF_CASH);
    }
    let seller = stretch_mut(book, width, trade.seller);
    seller[CASH] += cost;
    book::sell(lots_mut(seller, line), trade.quantity);
    let buyer = stretch_mut(book, width, trade.buyer);
    buyer[CASH] -= cost;
    lots_mut(buyer, line)[BOUGHT] += trade.quantity;
    Ok(0)
}
