//! Random calls on a day, with fitting and unfitting arguments.

use super::{Rng, Scale};
use crate::engine::Lent;
use crate::model::{
    lengths_for, range, stretch_width, test_creation, test_redemption, Call, Counts, Day, Lengths,
    Order, PerList, Reply, Trade, LOTS, RECORD_NUMBERS, REPORT_NUMBERS, STRETCH_HEAD,
};

/// A price for nearly every component, so that there is a reference value.
pub fn price_calls(rng: &mut Rng, lent: &Lent, scale: Scale) -> Vec<Call> {
    let some_left_out = rng.one_in(8);
    let mut calls = Vec::new();
    for line in 0..lent.prices.len() as u64 {
        if !(some_left_out && rng.one_in(8)) {
            calls.push(Call::Price {
                line,
                price: scale.price(rng),
            });
        }
    }
    calls
}

/// Any call; its arguments mostly fit the day.
pub fn any_call(rng: &mut Rng, lent: &Lent, scale: Scale) -> Call {
    match rng.below(40) {
        0..=5 => price(rng, lent, scale),
        6..=17 => Call::Trade(trade(rng, lent, scale)),
        18..=25 => order(rng, lent, Call::Create, test_creation),
        26..=33 => order(rng, lent, Call::Redeem, test_redemption),
        34..=35 => Call::Value,
        36 => Call::TestDay,
        37..=38 => order(rng, lent, Call::TestCreation, test_creation),
        _ => order(rng, lent, Call::TestRedemption, test_redemption),
    }
}

fn price(rng: &mut Rng, lent: &Lent, scale: Scale) -> Call {
    let count = lent.prices.len() as u64;
    let line = match rng.below(12) {
        0 => rng.pick(&[count, count + 1, u64::MAX]),
        _ => rng.below(count.max(1)),
    };
    Call::Price {
        line,
        price: any_price(rng, scale),
    }
}

fn any_price(rng: &mut Rng, scale: Scale) -> u64 {
    let highest = *range::PRICE.end();
    match rng.below(14) {
        0 => rng.pick(&[0, highest + 1, u64::MAX]),
        1 => rng.pick(&[1, highest]),
        _ => scale.price(rng),
    }
}

pub(super) fn trade(rng: &mut Rng, lent: &Lent, scale: Scale) -> Trade {
    let count = lent.prices.len() as u64;
    let line = match rng.below(14) {
        0 => rng.pick(&[count + 1, count + 2, u64::MAX]),
        1..=4 => count,
        _ => rng.below(count + 1),
    };
    let (seller, buyer) = (account(rng, lent), account(rng, lent));
    let buyer = if buyer == seller && !rng.one_in(8) {
        neighbour(lent, seller)
    } else {
        buyer
    };
    let quantity = trade_quantity(rng, sellable(lent, seller, line));
    Trade {
        line,
        quantity,
        price: any_price(rng, scale),
        seller,
        buyer,
    }
}

/// The numbers of an account's stretch, if the book has it whole.
fn stretch(lent: &Lent, account: u64) -> Option<&[u64]> {
    let width = stretch_width(lent.prices.len());
    let start = usize::try_from(account).ok()?.checked_mul(width)?;
    lent.book.get(start..start.checked_add(width)?)
}

/// What the account may sell of a line, where there are such.
fn sellable(lent: &Lent, account: u64, line: u64) -> u64 {
    let lots = stretch(lent, account).and_then(|stretch| {
        stretch[STRETCH_HEAD..]
            .chunks_exact(LOTS)
            .nth(usize::try_from(line).ok()?)
    });
    lots.map_or(0, |lots| lots[0].saturating_add(lots[2]))
}

fn trade_quantity(rng: &mut Rng, sellable: u64) -> u64 {
    let highest = *range::TRADE_QUANTITY.end();
    let most = sellable.clamp(1, highest);
    match rng.below(20) {
        0 => rng.pick(&[0, highest + 1, u64::MAX]),
        1 => highest,
        2 => sellable.saturating_add(1),
        3..=6 => most,
        7..=13 => rng.between(1, most),
        _ => rng.between(1, most.min(9)),
    }
}

/// Accounts by the lent runs, which say A even where the day's was changed.
fn accounts(lent: &Lent) -> u64 {
    (lent.book.len() / stretch_width(lent.prices.len())) as u64
}

/// Another account beside this one, if there are two that may trade.
fn neighbour(lent: &Lent, account: u64) -> u64 {
    match account {
        2.. => account - 1,
        _ => 2.min(accounts(lent).saturating_sub(1)),
    }
}

/// Mostly an account that may trade and order.
fn account(rng: &mut Rng, lent: &Lent) -> u64 {
    let accounts = accounts(lent);
    match rng.below(30) {
        0 => rng.pick(&[0, accounts, accounts + 1, u64::MAX]),
        _ => rng.between(1, accounts.max(2) - 1),
    }
}

/// The test of an order, called alone.
type OrderTest = fn(&Day, &[u64], &[u64], u64, u64, Lengths) -> Reply;

fn order(rng: &mut Rng, lent: &Lent, make: fn(Order) -> Call, test: OrderTest) -> Call {
    let account = account(rng, lent);
    let units = units(rng, lent.day.fund.basket_size);
    let most = lent.runs.lengths();
    let reply = test(&lent.day, &lent.book, &lent.prices, account, units, most);
    make(Order {
        account,
        units,
        lengths: list_lengths(rng, reply, most),
    })
}

fn units(rng: &mut Rng, basket_size: u64) -> u64 {
    let baskets = match rng.below(16) {
        0 => rng.pick(&[0, 21, 22, 1 << 40]),
        1 => 20,
        2..=5 => rng.between(1, 20),
        _ => rng.between(1, 3),
    };
    let units = basket_size.wrapping_mul(baskets);
    match rng.below(30) {
        0 => units.wrapping_add(1),
        1 => units.wrapping_sub(1),
        2 => rng.pick(&[0, 1, u64::MAX]),
        _ => units,
    }
}

/// Lengths for the lists of an order that has this reply where it is lent the
/// most: each just enough or all there is, and at times one or all of another
/// length.
pub(super) fn list_lengths(rng: &mut Rng, reply: Reply, most: Lengths) -> Lengths {
    let needed = lengths_for(Counts {
        records: reply.value,
        reports: reply.reports,
    });
    let widths = PerList::from([RECORD_NUMBERS, REPORT_NUMBERS, REPORT_NUMBERS]);
    let odd = match rng.below(24) {
        0..=1 => [true; 3],
        2..=8 => {
            let one = rng.index(3);
            std::array::from_fn(|list| list == one)
        }
        _ => [false; 3],
    };
    let lists = needed.zip(widths).zip(odd.into());
    let lengths = lists.map(|((needed, width), is_odd)| match is_odd {
        true => odd_length(rng, needed, width),
        false if rng.one_in(3) => needed,
        false => usize::MAX,
    });
    let lengths = lengths.zip(most);
    lengths.map(|(length, most)| length.min(most))
}

/// A length about that which a list needs, or shorter.
fn odd_length(rng: &mut Rng, needed: usize, width: usize) -> usize {
    match rng.below(7) {
        0..=1 => needed.saturating_sub(1),
        2 => needed.saturating_sub(width),
        3 => needed + 1,
        4 => needed + width - 1,
        5 => rng.index(needed + 1),
        _ => 0,
    }
}
