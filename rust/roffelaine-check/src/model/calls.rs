//! Calls as values.

use super::creation::{create, test_creation};
use super::order_lists::{Lengths, Lists, PerList};
use super::price::set_price;
use super::records::RECORD_NUMBERS;
use super::redemption::{redeem, test_redemption};
use super::refusal::{Counts, Reply};
use super::reports::REPORT_NUMBERS;
use super::soundness::test_day;
use super::trade::{trade, Trade};
use super::types::Day;
use super::value::reference_value;

/// An order with the lengths of its lent lists, in numbers.
#[derive(Clone, Copy, Debug, PartialEq, Eq)]
pub struct Order {
    pub account: u64,
    pub units: u64,
    pub lengths: Lengths,
}

impl Order {
    /// An order whose lists have just the places for so much.
    pub fn with_places(account: u64, units: u64, counts: Counts) -> Self {
        Order {
            account,
            units,
            lengths: lengths_for(counts),
        }
    }
}

/// The lengths of lists that just take so many records, and so many reports to
/// each party.
pub fn lengths_for(counts: Counts) -> Lengths {
    let reports = REPORT_NUMBERS * counts.reports as usize;
    PerList {
        records: RECORD_NUMBERS * counts.records as usize,
        investor: reports,
        fund: reports,
    }
}

/// A call on an opened day.
#[derive(Clone, Copy, Debug, PartialEq, Eq)]
pub enum Call {
    Price { line: u64, price: u64 },
    Trade(Trade),
    Create(Order),
    Redeem(Order),
    Value,
    TestDay,
    TestCreation(Order),
    TestRedemption(Order),
}

impl Call {
    /// Lengths of the lists that the call is lent.
    pub fn lengths(&self) -> Lengths {
        match self {
            Call::Create(order) | Call::Redeem(order) => order.lengths,
            _ => Lengths::default(),
        }
    }

    /// The tests alone of an order, by the lengths of its lists; none where it
    /// is no order.
    pub fn tests_alone(&self) -> Option<Call> {
        match *self {
            Call::Create(order) => Some(Call::TestCreation(order)),
            Call::Redeem(order) => Some(Call::TestRedemption(order)),
            _ => None,
        }
    }
}

/// Makes one call with the test of the day; an order is lent all of its lists.
pub fn call(
    day: &Day,
    book: &mut [u64],
    prices: &mut [u64],
    lists: Lists<'_>,
    call: &Call,
) -> Reply {
    match *call {
        Call::Price { line, price } => set_price(day, book, prices, line, price),
        Call::Trade(ref terms) => trade(day, book, prices, terms),
        Call::Create(order) => create(day, book, prices, order.account, order.units, lists),
        Call::Redeem(order) => redeem(day, book, prices, order.account, order.units, lists),
        Call::Value => reference_value(day, book, prices),
        Call::TestDay => test_day(day, book, prices).map(|()| 0).into(),
        Call::TestCreation(order) => {
            test_creation(day, book, prices, order.account, order.units, order.lengths)
        }
        Call::TestRedemption(order) => {
            test_redemption(day, book, prices, order.account, order.units, order.lengths)
        }
    }
}
