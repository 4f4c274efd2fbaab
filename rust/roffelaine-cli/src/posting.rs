//! Positions posted as a broker posts them: opening holdings, trades, and the
//! records of orders. The book of the day book is not looked at.

use crate::statement::Call;
use roffelaine::{Book, Holdings, List, Record, Side};

/// What a position opened with and what moved.
#[derive(Clone, Copy, Debug, Default, PartialEq, Eq)]
pub struct Moves {
    pub opened: i128,
    pub came_in: i128,
    pub went_out: i128,
}

impl Moves {
    pub fn posted(&self) -> i128 {
        self.opened + self.came_in - self.went_out
    }
}

/// The positions of every account: a place for each line, the unit's behind
/// the components, and cash last.
#[derive(Clone, Debug, Default, PartialEq, Eq)]
pub struct Posting {
    places: usize,
    moves: Vec<Moves>,
}

/// The fund's account.
pub const FUND: usize = 0;

impl Posting {
    /// What the accounts open with.
    pub fn of(holdings: &[Holdings]) -> Self {
        let places = holdings.first().map_or(0, |held| held.lines.len() + 1);
        let numbers = holdings.iter().flat_map(|held| {
            let lines = held.lines.iter().copied();
            lines.chain([held.cash.0])
        });
        let moves = numbers.map(|opened| Moves {
            opened: opened.into(),
            ..Moves::default()
        });
        Posting {
            places,
            moves: moves.collect(),
        }
    }

    pub fn accounts(&self) -> usize {
        self.moves.len().checked_div(self.places).unwrap_or(0)
    }

    /// How many places an account has: its lines and cash.
    pub fn places(&self) -> usize {
        self.places
    }

    /// The place of cash.
    pub fn cash(&self) -> usize {
        self.places - 1
    }

    /// An account's position at a place.
    pub fn at(&self, account: usize, place: usize) -> &Moves {
        &self.moves[account * self.places + place]
    }

    fn add(&mut self, account: usize, place: usize, amount: i128) {
        self.moves[account * self.places + place].came_in += amount;
    }

    fn take(&mut self, account: usize, place: usize, amount: i128) {
        self.moves[account * self.places + place].went_out += amount;
    }

    fn carry(&mut self, from: usize, to: usize, place: usize, amount: i128) {
        self.take(from, place, amount);
        self.add(to, place, amount);
    }

    /// Posts an accepted call with the records that it made.
    pub fn post(&mut self, list: &List<'_>, call: &Call, records: &[Record]) {
        match *call {
            Call::Trade(trade) => {
                let (seller, buyer) = (trade.seller as usize, trade.buyer as usize);
                if let Some(line) = list.line_of(trade.code) {
                    self.carry(seller, buyer, line, trade.quantity.into());
                    self.carry(buyer, seller, self.cash(), trade.paid());
                }
            }
            Call::Create(order) | Call::Redeem(order) => {
                for record in records {
                    self.post_record(list, order.account as usize, record);
                }
            }
            // Tests alone move nothing.
            Call::TestCreate(_) | Call::TestRedeem(_) => {}
            Call::Open | Call::Price { .. } | Call::Value => {}
        }
    }

    /// Units stand under two codes and are posted under the first one. Cash
    /// goes against the side: who buys pays.
    fn post_record(&mut self, list: &List<'_>, account: usize, record: &Record) {
        let first = list.head.fund.first_code;
        let unit = list.components.len();
        let (quantity, amount) = (record.quantity.into(), record.amount.0.into());
        let is_buy = record.side == Side::Buy;
        match (record.code.checked_sub(first), is_buy) {
            (Some(0), true) => self.add(account, unit, quantity),
            (Some(0), false) => self.take(account, unit, quantity),
            (Some(1), _) => {}
            (Some(2 | 5), true) => self.carry(account, FUND, self.cash(), amount),
            (Some(2 | 5), false) => self.carry(FUND, account, self.cash(), amount),
            (_, buys) => {
                let Some(line) = list.line_of(record.code) else {
                    return;
                };
                let (from, to) = if buys {
                    (FUND, account)
                } else {
                    (account, FUND)
                };
                self.carry(from, to, line, quantity);
            }
        }
    }

    /// The moves of a place over the fund and all accounts.
    pub fn total(&self, place: usize) -> Moves {
        let mut total = Moves::default();
        for account in 0..self.accounts() {
            let moves = self.at(account, place);
            total.opened += moves.opened;
            total.came_in += moves.came_in;
            total.went_out += moves.went_out;
        }
        total
    }
}

/// What the book holds at a place of an account, which must be the day's.
pub fn held(book: &Book<'_>, account: usize, place: usize) -> i128 {
    let account = book.account(account).expect("an account of the day");
    if place == account.lines() {
        account.cash().0.into()
    } else {
        account.lots(place).total().into()
    }
}

#[cfg(test)]
mod tests {
    use super::*;
    use crate::sample::{holdings, list, CASH, CMB, SPDB, UNIT};
    use crate::statement::{Order, Trade};
    use roffelaine::{Money, Units};

    fn opening() -> Posting {
        Posting::of(&holdings())
    }

    fn record(code: u64, side: Side, quantity: u64, price: u64) -> Record {
        Record {
            code,
            side,
            quantity,
            price: Money(price),
            amount: Money(quantity * price),
        }
    }

    fn order(account: u64) -> Order {
        Order {
            account,
            units: Units(1_000_000),
            room: None,
        }
    }

    /// The positions that are not what they opened with, and by how much.
    fn moved(posting: &Posting) -> Vec<(usize, usize, i128)> {
        let places = posting.places();
        let changes = posting
            .moves
            .iter()
            .map(|moves| moves.came_in - moves.went_out);
        let changed = changes.enumerate().filter(|&(_, change)| change != 0);
        changed
            .map(|(at, change)| (at / places, at % places, change))
            .collect()
    }

    #[test]
    fn accounts_open_with_their_holdings() {
        let posting = opening();
        assert_eq!((posting.accounts(), posting.places()), (3, 7));
        assert_eq!(posting.cash(), CASH);
        assert_eq!(posting.at(0, SPDB).posted(), 20_000);
        assert_eq!(posting.at(1, CASH).posted(), 500_000_000);
        assert_eq!(posting.at(2, UNIT).posted(), 2_000_000);
        assert_eq!(moved(&posting), []);
    }

    #[test]
    fn a_trade_moves_stock_or_units_and_cash_the_other_way() {
        let trade = |code| {
            Call::Trade(Trade {
                code,
                quantity: 100,
                price: Money(426),
                seller: 2,
                buyer: 1,
            })
        };
        for (code, place) in [(600_000, SPDB), (510_300, UNIT)] {
            let mut posting = opening();
            posting.post(&list(), &trade(code), &[]);
            assert_eq!(
                moved(&posting),
                [
                    (1, place, 100),
                    (1, CASH, -42_600),
                    (2, place, -100),
                    (2, CASH, 42_600)
                ]
            );
        }
    }

    /// A record, the place that it moves, and what the fund and the account
    /// then have more.
    #[test]
    fn every_kind_of_record_is_posted_on_its_side() {
        let (buy, sell, million) = (Side::Buy, Side::Sell, 1_000_000);
        let kinds = [
            (record(510_300, buy, 5, 0), UNIT, 0, 5),
            (record(510_300, sell, 5, 0), UNIT, 0, -5),
            (record(510_301, buy, 5, 0), UNIT, 0, 0),
            (record(510_301, sell, 5, 0), UNIT, 0, 0),
            (record(600_000, sell, 5, 0), SPDB, 5, -5),
            (record(600_000, buy, 5, 0), SPDB, -5, 5),
            (
                record(510_302, buy, million, 173),
                CASH,
                173_000_000,
                -173_000_000,
            ),
            (record(510_302, sell, 1, 408_000), CASH, -408_000, 408_000),
            (record(510_305, buy, 1, 600_000), CASH, 600_000, -600_000),
            (
                record(510_305, sell, million, 113),
                CASH,
                -113_000_000,
                113_000_000,
            ),
        ];
        for (record, place, fund, account) in kinds {
            for call in [Call::Create(order(1)), Call::Redeem(order(1))] {
                let mut posting = opening();
                posting.post(&list(), &call, &[record]);
                let mut expected = vec![(0, place, fund), (1, place, account)];
                expected.retain(|&(_, _, change)| change != 0);
                assert_eq!(moved(&posting), expected, "{record:?}");
            }
        }
    }

    /// The creation of the paper: 113,600.000 and 173,408.000 yuan.
    #[test]
    fn the_creation_of_the_paper_is_posted() {
        let (buy, sell, million) = (Side::Buy, Side::Sell, 1_000_000);
        let records = [
            record(510_300, buy, million, 0),
            record(600_000, sell, 3_072, 0),
            record(600_036, sell, 3_000, 0),
            record(510_305, buy, million, 113),
            record(510_305, buy, 1, 600_000),
            record(510_302, buy, million, 173),
            record(510_302, buy, 1, 408_000),
            record(510_301, buy, million, 0),
        ];
        let mut posting = opening();
        posting.post(&list(), &Call::Create(order(1)), &records);
        let posted = |account, place| posting.at(account, place).posted();
        let places = [SPDB, CMB, UNIT, CASH];
        assert_eq!(
            places.map(|place| posted(1, place)),
            [0, 0, 1_000_000, 212_992_000]
        );
        assert_eq!(
            places.map(|place| posted(FUND, place)),
            [23_072, 13_000, 0, 1_287_008_000]
        );
        let total = posting.total(CASH);
        assert_eq!(total.opened, 1_600_000_000);
        assert_eq!((total.came_in, total.went_out), (287_008_000, 287_008_000));
        let units = posting.total(UNIT);
        assert_eq!((units.opened, units.posted()), (2_000_000, 3_000_000));
    }

    #[test]
    fn other_calls_post_nothing() {
        let price = Call::Price {
            code: 600_000,
            price: Money(10_000),
        };
        let mut posting = opening();
        let tests = [Call::TestCreate(order(1)), Call::TestRedeem(order(1))];
        for call in [Call::Open, Call::Value, price].into_iter().chain(tests) {
            posting.post(&list(), &call, &[]);
        }
        assert_eq!(posting, opening());
    }
}
