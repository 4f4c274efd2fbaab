//! Document 01 and the change requests of document 02 that have landed, written
//! from these papers alone.
//!
//! Every call works in place on what the caller lends. A refused call leaves
//! all of it as it was. Calls on an opened day first test the day (refusal 5);
//! `run` tests it once for a whole list of calls where that is enough.

mod book;
mod calls;
mod creation;
mod driver;
mod flags;
pub mod list;
mod opening;
mod order_lists;
mod order_writer;
mod orders;
mod price;
mod records;
mod redemption;
pub mod refusal;
mod reports;
mod soundness;
mod trade;
mod types;
mod value;

pub use book::{book_length, holdings_length, stretch_width, LOTS, STRETCH_HEAD};
pub use calls::{call, lengths_for, Call, Order};
pub use creation::{create, test_creation};
pub use driver::{run, run_one_by_one, Work, ANSWER_NUMBERS, ROW_NUMBERS};
pub use flags::{FlagColumn, FlagRow, FlagTable, FLAGS, FLAG_COLUMNS, TABLE_NUMBERS};
pub use opening::{open, Opening};
pub use order_lists::{Lengths, Lists, PerList};
pub use price::set_price;
pub use records::{BUY, RECORD_NUMBERS, SELL};
pub use redemption::{redeem, test_redemption};
pub use refusal::{Counts, Refusal, Reply};
pub use reports::{
    CASH_REPORT, OTHER_KIND, REPORT_NUMBERS, SHANGHAI_KIND, STOCK_REPORT, UNIT_REPORT,
};
pub use soundness::test_day;
pub use trade::{trade, Trade};
pub use types::{Component, Day, Fund, COMPONENT_NUMBERS, MAX_COMPONENTS};
pub use value::reference_value;

/// The ends of the ranges that the paper names.
pub mod range {
    pub const ACCOUNTS: std::ops::RangeInclusive<u64> = 2..=64;
    pub const COMPONENTS: std::ops::RangeInclusive<u64> = 1..=300;
    pub const FIRST_CODE_MAX: u64 = 999_994;
    pub const CODE_MAX: u64 = 999_999;
    pub const BASKET_SIZE: std::ops::RangeInclusive<u64> = 1..=99_999_999;
    pub const RATIO_MAX: u64 = 100_000;
    pub const SWITCH_MAX: u64 = 3;
    pub const ESTIMATED_CASH: std::ops::RangeInclusive<i64> = -999_999_999..=9_999_999_999;
    pub const LIMIT_MAX: u64 = 999_999_999_999;
    pub const QUANTITY_MAX: u64 = 99_999_999;
    pub const RATE_MAX: u64 = 100_000;
    pub const AMOUNT_MAX: u64 = 99_999_999_999;
    pub const PRICE: std::ops::RangeInclusive<u64> = 1..=9_999_999;
    pub const TRADE_QUANTITY: std::ops::RangeInclusive<u64> = 1..=999_999_999;
    pub const BASKETS: std::ops::RangeInclusive<u64> = 1..=20;
    pub const VALUE_MAX: u64 = 9_999_999;
    /// Ceiling on the units created, or redeemed, by all accounts.
    pub const COUNTER_MAX: u64 = 999_999_999_999;
    pub const LINE_TOTAL_MAX: u64 = 1_000_000_000_000_000_000;
    /// The units' own bound once the day is open.
    pub const UNIT_TOTAL_MAX: u64 = 2_000_000_000_000_000_000;
    pub const CASH_TOTAL_MAX: u64 = 4_000_000_000_000_000_000;
    pub const NAV_PER_BASKET_MAX: u64 = 99_999_999_999;
    pub const NAV_MAX: u64 = 9_999_999;
}
