//! A proved ETF day book.
//!
//! One exchange-traded fund, one day: [`Day`] is opened with what each account
//! holds and takes prices, trades, creations and redemptions of baskets; an
//! order gives the [`Record`]s that brokers and the fund's manager post from, and
//! the execution [`Report`]s to the investor and to the fund's manager. A
//! [`FlagTable`] may say other than ours what each component's flag means.
//! [`Batch`] makes many calls at once, [`List`] is the fund's list as text.
//! [`lent`] has the same calls over runs of numbers that the caller owns.
//!
//! The calls are made by an archive whose functions are proved, on every input,
//! to answer what the paper says; a [`Refusal`] has the paper's number and place
//! and changes nothing. What stands in this crate is not proved: it is held to
//! an independent model by the tests of `roffelaine-check`.
//!
//! ```
//! use roffelaine::{Day, Holdings, List, Money, Refusal, Units};
//!
//! # fn main() -> Result<(), Refusal> {
//! # let text = concat!("[ETF300]\r\nFundid1=510301\r\nCreationRedemptionUnit=1000\r\nMaxCashRatio=0.05000\r\n",
//! #     "Publish=1\r\nCreationRedemption=1\r\nRecordnum=1\r\nEstimateCashComponent=0.00\r\nTradingDay=20250630\r\n",
//! #     "PreTradingDay=20250627\r\nCashComponent=0.00\r\nNAVperCU=0.00\r\nNAV=0.0000\r\nCreationLimit=0\r\n",
//! #     "RedemptionLimit=0\r\nCreationLimitPerUser=0\r\nRedemptionLimitPerUser=0\r\nNetCreationLimit=0\r\n",
//! #     "NetRedemptionLimit=0\r\nNetCreationLimitPerUser=0\r\nNetRedemptionLimitPerUser=0\r\nTAGTAG\r\n",
//! #     "600036|CMB     |      30|0|       |       |            |\r\nENDENDEND\r\n").as_bytes();
//! let list = List::read(text)?;
//! let accounts = [
//!     Holdings { cash: Money(0), lines: vec![500, 0] },
//!     Holdings { cash: Money::from_yuan(9_000), lines: vec![60, 0] },
//! ];
//! let mut day = Day::open(&list.head.fund, &list.components, &accounts)?;
//! let line = day.line_of(600_036).expect("a component");
//! day.set_price(line, Money::from_yuan(40))?;
//! assert_eq!(day.reference_value()?.to_string(), "1.2000");
//! let made = day.create(1, Units(2_000))?;
//! for record in &made.records {
//!     println!("{:06} {} {}", record.code, record.side.letter(), record.quantity);
//! }
//! for (investor, fund) in made.investor.iter().zip(&made.fund) {
//!     println!("{investor}, to the fund {fund}");
//! }
//! # Ok(())
//! # }
//! ```
#![warn(missing_docs)]
#![deny(unsafe_code)]

mod amounts;
mod batch;
mod book;
mod day;
mod flag_table;
mod fund;
mod layout;
#[allow(unsafe_code)]
pub mod lent;
mod list;
mod list_fault;
mod orders;
mod records;
mod refusal;
mod reports;

pub use amounts::{decimal, AmountError, Cents, Money, Rate, ReferenceValue, Units};
pub use batch::{Batch, Outcome};
pub use book::{Account, Book, Lots};
pub use day::{Day, Holdings, Trade};
pub use flag_table::{FlagColumn, FlagTable};
pub use fund::{Component, Fund, Head, Limits, Switch, MOST_ACCOUNTS, MOST_COMPONENTS};
pub use layout::{FLAGS, FLAG_COLUMNS, NAME_BYTES};
pub use list::{List, LONGEST_TEXT};
pub use list_fault::{lines_in_lf, list_end, position, with_crlf, ListFault, Position};
pub use orders::{Counts, Execution, OrderLists, Rooms};
pub use records::{Record, RecordList, Side};
pub use refusal::{Meaning, Refusal, REFUSALS};
pub use reports::{CashGroup, CashKind, Report, ReportList, ReportType};
