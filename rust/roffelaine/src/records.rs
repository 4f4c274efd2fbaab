//! The records of an order, read from the run that the archive fills.

use crate::layout::{most_records, RECORD_NUMBERS};
use crate::{Money, MOST_COMPONENTS};
use std::fmt;

/// The side of a record, B or S, and of a report, 1 or 2.
#[derive(Clone, Copy, Debug, PartialEq, Eq, Hash)]
pub enum Side {
    /// B, 1.
    Buy,
    /// S, 2.
    Sell,
}

impl Side {
    /// Its letter, `B` or `S`.
    pub const fn letter(self) -> char {
        match self {
            Side::Buy => 'B',
            Side::Sell => 'S',
        }
    }

    /// Its number, 1 or 2.
    pub const fn number(self) -> u64 {
        match self {
            Side::Buy => 1,
            Side::Sell => 2,
        }
    }

    /// The other side.
    pub const fn opposite(self) -> Self {
        match self {
            Side::Buy => Side::Sell,
            Side::Sell => Side::Buy,
        }
    }

    pub(crate) const fn from_number(number: u64) -> Self {
        match number {
            1 => Side::Buy,
            _ => Side::Sell,
        }
    }
}

/// A record.
#[derive(Clone, Copy, Debug, PartialEq, Eq, Hash)]
pub struct Record {
    /// The code that is posted.
    pub code: u64,
    /// Bought or sold.
    pub side: Side,
    /// Units or shares; 1,000,000 or 1 of cash.
    pub quantity: u64,
    /// 0 for units and stock.
    pub price: Money,
    /// Quantity times price.
    pub amount: Money,
}

impl Record {
    fn from_numbers(numbers: &[u64]) -> Self {
        Record {
            code: numbers[0],
            side: Side::from_number(numbers[1]),
            quantity: numbers[2],
            price: Money(numbers[3]),
            amount: Money(numbers[4]),
        }
    }
}

/// As the command prints it: code, side, quantity, price, amount.
///
/// ```
/// use roffelaine::{Money, Record, Side};
/// let record = Record {
///     code: 510_305,
///     side: Side::Buy,
///     quantity: 1_000_000,
///     price: Money(113),
///     amount: Money::from_yuan(113_000),
/// };
/// assert_eq!(record.to_string(), "510305 B 1000000 0.113 113000.000");
/// ```
impl fmt::Display for Record {
    fn fmt(&self, out: &mut fmt::Formatter<'_>) -> fmt::Result {
        let (code, side, quantity) = (self.code, self.side.letter(), self.quantity);
        let (price, amount) = (self.price, self.amount);
        write!(out, "{code:06} {side} {quantity} {price} {amount}")
    }
}

/// The numbers of a list that has room for so many records; past what any order
/// makes, room makes no difference.
pub(crate) fn room_numbers(records: usize) -> usize {
    RECORD_NUMBERS * records.min(most_records(MOST_COMPONENTS))
}

/// The first `count` records of a run.
pub(crate) fn records_of(run: &[u64], count: usize) -> Vec<Record> {
    run.chunks_exact(RECORD_NUMBERS)
        .take(count)
        .map(Record::from_numbers)
        .collect()
}

/// A list that is lent to orders and takes their records.
#[derive(Clone, Debug, Default, PartialEq, Eq)]
pub struct RecordList {
    pub(crate) run: Vec<u64>,
}

impl RecordList {
    /// A list with places for so many records, and for no more than any order
    /// makes.
    pub fn with_room(records: usize) -> Self {
        RecordList {
            run: vec![0; room_numbers(records)],
        }
    }

    /// The first `count` records: those of the last order that was lent this
    /// list, where `count` is what it answered.
    pub fn records(&self, count: usize) -> Vec<Record> {
        records_of(&self.run, count)
    }
}
