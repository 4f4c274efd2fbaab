//! Refusals by the paper's numbers, and the reply to a call.

use std::fmt;

/// A or N out of range, or a lent length that does not fit them.
pub const SIZES: u64 = 1;
/// A field of the fund, or of the list's head, out of range.
pub const FUND_FIELD: u64 = 2;
/// A component out of range, order or flag use.
pub const COMPONENT: u64 = 3;
/// A total over its bound, or units held by the fund.
pub const TOTAL: u64 = 4;
/// The day is not sound.
pub const UNSOUND_DAY: u64 = 5;
/// No such line.
pub const NO_SUCH_LINE: u64 = 6;
/// Quantity or price out of range.
pub const QUANTITY_OR_PRICE: u64 = 7;
/// No such account for this call.
pub const ACCOUNT: u64 = 8;
/// The account is short of stock or units.
pub const SHORT_OF_STOCK: u64 = 9;
/// The account is short of cash.
pub const SHORT_OF_CASH: u64 = 10;
/// Not a whole number of baskets from 1 to 20.
pub const NOT_WHOLE_BASKETS: u64 = 11;
/// The switch forbids the order.
pub const SWITCH: u64 = 12;
/// A limit or the ceiling would be passed.
pub const LIMIT: u64 = 13;
/// There is no reference value.
pub const NO_REFERENCE_VALUE: u64 = 14;
/// The maximum cash ratio would be passed.
pub const CASH_RATIO: u64 = 15;
/// A lent list of records or reports, component list or output is too short.
pub const LIST_TOO_SHORT: u64 = 16;
/// The fund is short of stock or cash.
pub const FUND_SHORT: u64 = 17;
/// A line of the list text does not stand as it must.
pub const TEXT_LINE: u64 = 18;
/// A field of the list text is not written as it must be.
pub const TEXT_FIELD: u64 = 19;
/// Recordnum is out of range or not the count of component lines.
pub const RECORD_COUNT: u64 = 20;
/// The flag table breaks its rules.
pub const FLAG_TABLE: u64 = 21;

/// Why a call is turned back: the paper's number and a place.
#[derive(Clone, Copy, Debug, PartialEq, Eq)]
pub struct Refusal {
    pub number: u64,
    pub place: u64,
}

impl Refusal {
    pub const fn new(number: u64) -> Self {
        Refusal { number, place: 0 }
    }

    pub const fn at(number: u64, place: usize) -> Self {
        Refusal {
            number,
            place: place as u64,
        }
    }
}

impl fmt::Display for Refusal {
    fn fmt(&self, out: &mut fmt::Formatter<'_>) -> fmt::Result {
        write!(out, "refused by {} at place {}", self.number, self.place)
    }
}

impl std::error::Error for Refusal {}

/// How many records an accepted order makes, and how many reports to each
/// party.
#[derive(Clone, Copy, Debug, Default, PartialEq, Eq)]
pub struct Counts {
    pub records: u64,
    pub reports: u64,
}

/// The answer to a call as four numbers. Number 0 is accepted; the value is
/// the count of records or bytes, or the reference value, else 0; the count of
/// reports is 0 but for orders.
#[derive(Clone, Copy, Debug, Default, PartialEq, Eq)]
pub struct Reply {
    pub number: u64,
    pub place: u64,
    pub value: u64,
    pub reports: u64,
}

impl Reply {
    pub const fn accepted(value: u64) -> Self {
        Reply {
            number: 0,
            place: 0,
            value,
            reports: 0,
        }
    }

    /// An order that made so much.
    pub const fn made(counts: Counts) -> Self {
        Reply {
            number: 0,
            place: 0,
            value: counts.records,
            reports: counts.reports,
        }
    }

    pub const fn refused(number: u64, place: u64) -> Self {
        Reply {
            number,
            place,
            value: 0,
            reports: 0,
        }
    }

    pub const fn is_accepted(&self) -> bool {
        self.number == 0
    }

    /// As an answer of the driver.
    pub const fn numbers(&self) -> [u64; 4] {
        [self.number, self.place, self.value, self.reports]
    }

    /// The value of an accepted call, or its refusal.
    pub const fn outcome(&self) -> Result<u64, Refusal> {
        if self.is_accepted() {
            return Ok(self.value);
        }
        Err(Refusal {
            number: self.number,
            place: self.place,
        })
    }
}

impl From<Refusal> for Reply {
    fn from(refusal: Refusal) -> Self {
        Reply::refused(refusal.number, refusal.place)
    }
}

impl From<Result<u64, Refusal>> for Reply {
    fn from(answer: Result<u64, Refusal>) -> Self {
        answer.map_or_else(Reply::from, Reply::accepted)
    }
}

impl From<Result<Counts, Refusal>> for Reply {
    fn from(answer: Result<Counts, Refusal>) -> Self {
        answer.map_or_else(Reply::from, Reply::made)
    }
}
