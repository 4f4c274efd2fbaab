//! Posted against book after each order and trade, reports against records, and
//! the positions of the accounts that are given followed through the day.

use super::calls::{CallLine, Effect, Moving};
use super::compare::{compared, Compared};
use super::parting::Parting;
use super::reports;
use crate::positions::Positions;
use crate::posting::Posting;
use crate::said::Entry;
use roffelaine::{Book, List};
use std::collections::BTreeMap;

/// What is kept of a day while it is rehearsed.
pub struct Track<'p> {
    positions: &'p Positions,
    /// The positions of the given accounts, by account and place.
    followed: BTreeMap<usize, Vec<Followed>>,
    orders_and_trades: usize,
    parted: Option<Parted>,
    reported_orders: usize,
    misreported: Option<Misreported>,
}

/// The first order whose reports are not those that its records tell of.
#[derive(Clone, Debug, PartialEq, Eq)]
pub struct Misreported {
    pub by: CallLine,
    pub why: String,
}

/// The first call after which posted and book part, and where they do.
#[derive(Clone, Debug, PartialEq, Eq)]
pub struct Parted {
    pub by: CallLine,
    pub positions: Vec<Compared>,
}

impl<'p> Track<'p> {
    pub fn of(positions: &'p Positions) -> Self {
        Track {
            positions,
            followed: BTreeMap::new(),
            orders_and_trades: 0,
            parted: None,
            reported_orders: 0,
            misreported: None,
        }
    }

    /// How many orders and trades were accepted.
    pub fn orders_and_trades(&self) -> usize {
        self.orders_and_trades
    }

    pub fn parted(&self) -> Option<&Parted> {
        self.parted.as_ref()
    }

    /// How many orders had their reports on.
    pub fn reported_orders(&self) -> usize {
        self.reported_orders
    }

    pub fn misreported(&self) -> Option<&Misreported> {
        self.misreported.as_ref()
    }

    /// Whether posted and book, and reports and records, agree all day.
    pub fn is_clean(&self) -> bool {
        self.parted.is_none() && self.misreported.is_none()
    }

    /// Where a position of a given account parts from what is given for it.
    pub fn parting(&self, account: usize, place: usize) -> Option<Parting> {
        let followed = self.followed.get(&account)?.get(place)?;
        Some(followed.parting())
    }

    /// Takes what a line of the day came to.
    pub fn entry(&mut self, list: &List<'_>, entry: &Entry, posting: &Posting, book: &Book<'_>) {
        match Effect::of(entry) {
            None => {}
            Some(Effect::Opens) => self.open(posting),
            Some(Effect::Moves(moving)) => {
                self.after(&moving, posting, book);
                self.compare_reports(list, &moving);
            }
        }
    }

    /// Compares the reports of an order with its records, where they are on.
    fn compare_reports(&mut self, list: &List<'_>, moving: &Moving<'_>) {
        let Some(both) = moving.reports else {
            return;
        };
        self.reported_orders += 1;
        if self.misreported.is_none() {
            let why = reports::difference(list, moving.records, both);
            let by = moving.by;
            self.misreported = why.map(|why| Misreported { by, why });
        }
    }

    fn open(&mut self, posting: &Posting) {
        let given = self.positions.accounts();
        let given = given.range(..posting.accounts());
        let followed = given.map(|&account| {
            let places = (0..posting.places()).map(|place| Followed {
                given: self.positions.at(account, place).unwrap_or(0),
                now: posting.at(account, place).posted(),
                moved: false,
                parted: None,
            });
            (account, places.collect())
        });
        self.followed = followed.collect();
    }

    /// Compares the accounts that a call moved.
    fn after(&mut self, moving: &Moving<'_>, posting: &Posting, book: &Book<'_>) {
        let (by, accounts) = (moving.by, moving.accounts);
        self.orders_and_trades += 1;
        for account in accounts {
            let places = self.followed.get_mut(&account).into_iter().flatten();
            for (place, followed) in places.enumerate() {
                followed.follow(by, posting.at(account, place).posted());
            }
        }
        if self.parted.is_none() {
            let positions = accounts.into_iter();
            let positions = positions.flat_map(|account| compared(posting, book, account));
            let positions: Vec<_> = positions.filter(|each| !each.agrees()).collect();
            self.parted = (!positions.is_empty()).then_some(Parted { by, positions });
        }
    }
}

/// A position on its way to the end of the day.
#[derive(Clone, Debug, PartialEq, Eq)]
struct Followed {
    /// What is given for the end, 0 where it is not given.
    given: i128,
    now: i128,
    moved: bool,
    /// The call that moved it when it was last what is given.
    parted: Option<CallLine>,
}

impl Followed {
    fn follow(&mut self, by: CallLine, now: i128) {
        if now == self.now {
            return;
        }
        if self.now == self.given {
            self.parted = Some(by);
        }
        self.moved = true;
        self.now = now;
    }

    fn parting(&self) -> Parting {
        match self.parted {
            Some(by) => Parting::After(by),
            None if self.moved => Parting::Unexplained,
            None => Parting::NeverMoved,
        }
    }
}

#[cfg(test)]
mod tests {
    use super::super::calls::tests::{accepted, creation, made, opening, trade};
    use super::*;
    use crate::said::{Made, Reports};
    use crate::sample::{day, holdings, list, CASH, SPDB, UNIT};
    use roffelaine::{Money, Record, Trade, Units};

    fn positions() -> Positions {
        Positions::read(&list(), b"1,600000,3072\n9,cash,1\n")
    }

    /// A creation in line 43 and a trade in line 44, where the creation is
    /// posted with what `post` leaves of its records.
    fn tracked(positions: &Positions, post: impl Fn(&mut Vec<Record>)) -> Track<'_> {
        let (mut day, mut posting) = (day(), Posting::of(&holdings()));
        let mut track = Track::of(positions);
        track.entry(&list(), &opening(39), &posting, &day.book());
        let created = day.create(1, Units(1_000_000)).expect("records");
        let mut posted = created.records.clone();
        post(&mut posted);
        posting.post(&list(), &creation(), &posted);
        let created = accepted(43, creation(), made(created.records));
        track.entry(&list(), &created, &posting, &day.book());
        let units = Trade {
            line: UNIT,
            quantity: 100,
            price: Money(426),
            seller: 1,
            buyer: 2,
        };
        day.trade(&units).expect("a trade");
        posting.post(&list(), &trade(1, 2), &[]);
        let traded = accepted(44, trade(1, 2), Made::Done);
        track.entry(&list(), &traded, &posting, &day.book());
        track
    }

    #[test]
    fn a_right_posting_never_parts_from_the_book() {
        let positions = positions();
        let track = tracked(&positions, |_| {});
        assert_eq!((track.orders_and_trades(), track.parted()), (2, None));
    }

    #[test]
    fn the_first_call_with_a_wrong_posting_is_named() {
        let positions = positions();
        let track = tracked(&positions, |records| {
            records.retain(|record| record.code != 600_000)
        });
        let parted = track.parted().expect("a parting");
        assert_eq!(parted.by.to_string(), "line 43 create");
        let position = |account, posted, book| Compared {
            account,
            place: SPDB,
            posted,
            book,
        };
        assert_eq!(
            parted.positions,
            [position(0, 20_000, 23_072), position(1, 3_072, 0)]
        );
    }

    #[test]
    fn cash_that_is_not_posted_parts_too() {
        let positions = positions();
        let track = tracked(&positions, |records| {
            records.retain(|record| record.code != 510_305)
        });
        let parted = track.parted().expect("a parting");
        let places: Vec<_> = parted.positions.iter().map(|each| each.place).collect();
        assert_eq!(places, [CASH, CASH]);
        assert_eq!(parted.positions[1].posted, 500_000_000 - 173_408_000);
        assert_eq!(parted.positions[1].book, 500_000_000 - 287_008_000);
    }

    /// The creation of line 43 with its reports, of which the fund has one less
    /// where it is said so.
    fn reported(positions: &Positions, is_short: bool) -> Track<'_> {
        let (mut day, mut posting) = (day(), Posting::of(&holdings()));
        let mut track = Track::of(positions);
        let mut created = day.create(1, Units(1_000_000)).expect("records");
        posting.post(&list(), &creation(), &created.records);
        if is_short {
            created.fund.pop();
        }
        let outcome = Made::Order {
            records: created.records,
            reports: Some(Reports {
                investor: created.investor,
                fund: created.fund,
            }),
        };
        let created = accepted(43, creation(), outcome);
        track.entry(&list(), &created, &posting, &day.book());
        track
    }

    #[test]
    fn reports_are_compared_where_they_are_on() {
        let positions = positions();
        let off = tracked(&positions, |_| {});
        assert_eq!((off.reported_orders(), off.misreported()), (0, None));
        let on = reported(&positions, false);
        assert_eq!((on.reported_orders(), on.misreported()), (1, None));
        let short = reported(&positions, true);
        let misreported = short.misreported().expect("a report is missing");
        assert_eq!(misreported.by.to_string(), "line 43 create");
        assert!(misreported.why.starts_with("fund report 4 is none"));
    }

    #[test]
    fn given_accounts_are_followed_from_the_last_opening() {
        let positions = positions();
        let mut track = tracked(&positions, |_| {});
        let create = CallLine {
            line: 43,
            word: "create",
        };
        assert_eq!(track.parting(1, SPDB), Some(Parting::After(create)));
        assert_eq!(track.parting(1, CASH), Some(Parting::Unexplained));
        assert_eq!(track.parting(2, SPDB), None);
        assert_eq!(track.parting(9, CASH), None);
        let posting = Posting::of(&holdings());
        track.entry(&list(), &opening(50), &posting, &day().book());
        assert_eq!(track.parting(1, SPDB), Some(Parting::NeverMoved));
    }

    #[test]
    fn what_parts_is_the_call_behind_the_last_equality() {
        // 3072, 0, 5200, 5200, 0, 5200, 9000
        let parting = |given| {
            let mut followed = Followed {
                given,
                now: 3_072,
                moved: false,
                parted: None,
            };
            for (line, now) in (1..).zip([0, 5_200, 5_200, 0, 5_200, 9_000]) {
                let word = "trade";
                followed.follow(CallLine { line, word }, now);
            }
            followed.parting().to_string()
        };
        assert_eq!(parting(3_072), "they part after line 1 trade");
        assert_eq!(parting(0), "they part after line 5 trade");
        assert_eq!(parting(5_200), "they part after line 6 trade");
        assert_eq!(parting(5), "no call explains it");
    }
}
