//! A fund of the most components under our flag table, for the benchmark and for
//! tests that count or watch what a call does: lines of the flags 0 to 4, an account that is short of
//! some, holdings that outlast many orders, and its list as text.

use crate::engine::{Engine, Model};
use crate::model::list::{Head, Writing};
use crate::model::{Component, Counts, FlagColumn, FlagTable, Fund, Opening, Order};

/// Components of the fund.
pub const COUNT: usize = 300;
/// Units in a basket, and the most baskets of an order.
pub const BASKET_SIZE: u64 = 10_000;
pub const BASKETS: u64 = 20;
/// Holdings that outlast all orders.
pub const AMPLE: u64 = 1_000_000_000_000_000;
/// A price for every component.
pub const PRICE: u64 = 10_000;
/// The most records and reports of an order.
pub const MOST: Counts = Counts {
    records: COUNT as u64 + 6,
    reports: COUNT as u64 + 2,
};

/// The most baskets of an account, with lists for the most records and reports.
pub fn order(account: u64) -> Order {
    Order::with_places(account, BASKETS * BASKET_SIZE, MOST)
}

/// The fund, without limits.
pub fn fund() -> Fund {
    Fund {
        first_code: 510_300,
        basket_size: BASKET_SIZE,
        max_cash_ratio: 50_000,
        switch: 1,
        estimated_cash: -33_122,
        limits: [0; 8],
    }
}

/// Components of the flags 0 to 4; most move stock. The two rates of one are unlike.
fn components() -> impl Iterator<Item = Component> {
    (0..COUNT as u64).map(|line| {
        let flag = [0, 1, 0, 1, 2, 1, 0, 1, 3, 4][line as usize % 10];
        let used = |column, number| match FlagTable::OURS.says(flag, column) {
            true => number,
            false => 0,
        };
        Component {
            code: 600_000 + line,
            quantity: 100 * (1 + line % 20),
            flag,
            premium: used(FlagColumn::RateUsed, 10_000),
            discount: used(FlagColumn::RateUsed, 5_000),
            amount: used(FlagColumn::AmountUsed, 1_000_000),
        }
    })
}

/// The components as they are lent.
pub fn component_run() -> Vec<u64> {
    components()
        .flat_map(|component| component.numbers())
        .collect()
}

/// Ample holdings for all; one account lacks a tenth of the lines, for which
/// its creations pay cash.
pub fn holdings(accounts: usize, lacking: usize) -> Vec<u64> {
    let mut holdings = Vec::new();
    for account in 0..accounts {
        holdings.push(10 * AMPLE);
        for line in 0..COUNT {
            let is_short = account == lacking && line % 10 == 1;
            holdings.push(if is_short { 0 } else { AMPLE });
        }
        holdings.push(if account == 0 { 0 } else { AMPLE });
    }
    holdings
}

/// An opening of the fund with so many accounts.
pub fn opening<'a>(accounts: usize, components: &'a [u64], holdings: &'a [u64]) -> Opening<'a> {
    Opening {
        accounts: accounts as u64,
        count: COUNT as u64,
        fund: fund(),
        table: &[],
        components,
        holdings,
    }
}

/// Names for all components.
pub fn names() -> Vec<u8> {
    b"ABCD    ".repeat(COUNT)
}

/// A list of these components, to be written.
pub fn writing<'a>(components: &'a [u64], names: &'a [u8]) -> Writing<'a> {
    let head = Head {
        fund: fund(),
        publish: 1,
        trading_day: 20_250_630,
        pre_trading_day: 20_250_627,
        cash_component: -33_122,
        nav_per_basket: 425_700_000,
        nav: 42_570,
    };
    Writing {
        letters: b"300",
        head,
        count: COUNT as u64,
        table: &[],
        components,
        names,
    }
}

/// The list as text, by the model.
pub fn list_text() -> Vec<u8> {
    let mut text = vec![0; 20_000];
    let reply = Model.write(&writing(&component_run(), &names()), &mut text);
    text.truncate(reply.value as usize);
    text
}
