//! The orders and trades of a day that were accepted.

use crate::posting::FUND;
use crate::said::{Answer, Entry, Reports, Said};
use crate::statement::Call;
use roffelaine::{Record, Side};
use std::fmt;

/// An order or a trade, by the line of the day that has it.
#[derive(Clone, Copy, Debug, PartialEq, Eq)]
pub struct CallLine {
    pub line: usize,
    pub word: &'static str,
}

impl fmt::Display for CallLine {
    fn fmt(&self, out: &mut fmt::Formatter<'_>) -> fmt::Result {
        write!(out, "line {} {}", self.line, self.word)
    }
}

/// What an accepted call does to positions.
pub enum Effect<'e> {
    /// An opening: they start.
    Opens,
    Moves(Moving<'e>),
}

/// An accepted order or trade.
pub struct Moving<'e> {
    pub by: CallLine,
    /// The accounts that it moves, the lower one first: for an order the
    /// fund's and its own.
    pub accounts: [usize; 2],
    pub records: &'e [Record],
    /// Those of an order, where they are on.
    pub reports: Option<&'e Reports>,
}

impl<'e> Effect<'e> {
    /// None where a line moves nothing.
    pub fn of(entry: &'e Entry) -> Option<Self> {
        let Said::Answer(answer) = &entry.said else {
            return None;
        };
        let Answer { call, outcome } = answer;
        outcome.as_ref().ok()?;
        let mut accounts = match *call {
            Call::Open => return Some(Effect::Opens),
            Call::Trade(trade) => [trade.seller as usize, trade.buyer as usize],
            Call::Create(order) | Call::Redeem(order) => [FUND, order.account as usize],
            Call::Price { .. } | Call::Value => return None,
            Call::TestCreate(_) | Call::TestRedeem(_) => return None,
        };
        accounts.sort_unstable();
        Some(Effect::Moves(Moving {
            by: CallLine {
                line: entry.line,
                word: call.word(),
            },
            accounts,
            records: answer.records(),
            reports: answer.reports(),
        }))
    }
}

impl Moving<'_> {
    /// What an order's cash records move for one of its accounts: each record,
    /// and the two of a code together. Only cash has an amount.
    pub fn cash_parts(&self, account: usize) -> Vec<i128> {
        let signed = |record: &Record| {
            let amount = i128::from(record.amount.0);
            if (record.side == Side::Buy) == (account == FUND) {
                amount
            } else {
                -amount
            }
        };
        let cash = self.records.iter().filter(|record| record.amount.0 > 0);
        let cash: Vec<&Record> = cash.collect();
        let single = cash.iter().map(|record| signed(record));
        let pairs = cash.windows(2).filter(|pair| pair[0].code == pair[1].code);
        let both = pairs.map(|pair| signed(pair[0]) + signed(pair[1]));
        single.chain(both).collect()
    }
}

#[cfg(test)]
pub mod tests {
    use super::*;
    use crate::said::Made;
    use crate::sample;
    use crate::statement::{Order, Trade};
    use roffelaine::{Money, Units};

    pub fn accepted(line: usize, call: Call, made: Made) -> Entry {
        let outcome = Ok(made);
        let said = Said::Answer(Answer { call, outcome });
        Entry { line, said }
    }

    pub fn opening(line: usize) -> Entry {
        accepted(line, Call::Open, Made::Done)
    }

    /// What an order made, with its reports off.
    pub fn made(records: Vec<Record>) -> Made {
        let reports = None;
        Made::Order { records, reports }
    }

    /// One basket for account 1.
    pub fn creation() -> Call {
        Call::Create(Order {
            account: 1,
            units: Units(1_000_000),
            room: None,
        })
    }

    /// 100 units at 0.426 yuan.
    pub fn trade(seller: u64, buyer: u64) -> Call {
        Call::Trade(Trade {
            code: 510_300,
            quantity: 100,
            price: Money(426),
            seller,
            buyer,
        })
    }

    fn moving(entry: &Entry) -> Moving<'_> {
        match Effect::of(entry) {
            Some(Effect::Moves(moving)) => moving,
            _ => panic!("an order or a trade"),
        }
    }

    #[test]
    fn accepted_orders_and_trades_move_two_accounts() {
        let traded = accepted(7, trade(3, 2), Made::Done);
        assert_eq!(moving(&traded).accounts, [2, 3]);
        let created = accepted(8, creation(), made(Vec::new()));
        assert_eq!(moving(&created).accounts, [0, 1]);
        assert_eq!(moving(&created).by.to_string(), "line 8 create");
        assert!(matches!(Effect::of(&opening(9)), Some(Effect::Opens)));
        let value = accepted(10, Call::Value, Made::Done);
        assert!(Effect::of(&value).is_none());
        let (records, reports) = (8, Some(4));
        let order = creation().order().copied().expect("an order");
        let tested = Made::Tested { records, reports };
        assert!(Effect::of(&accepted(11, Call::TestCreate(order), tested)).is_none());
    }

    /// The paper's creation: 113,000 and 600 yuan, 173,000 and 408.
    #[test]
    fn cash_has_its_records_and_their_sums() {
        let created = sample::day().create(1, Units(1_000_000)).expect("records");
        let created = accepted(8, creation(), made(created.records));
        let yuan = [113_000, 600, 173_000, 408, 113_600, 173_408];
        let paid = moving(&created);
        assert_eq!(paid.cash_parts(0), yuan.map(|yuan| yuan * 1_000));
        assert_eq!(paid.cash_parts(1), yuan.map(|yuan| yuan * -1_000));
    }
}
