//! A second pass over a day, for calls that moved as much as a given position
//! differs.

use super::calls::{CallLine, Effect, Moving};
use super::parting::{CallLines, Move, Part, Parting};
use crate::posting::Posting;
use crate::said::Entry;
use std::collections::BTreeMap;

/// The positions that differ, by account and place.
#[derive(Default)]
pub struct Search {
    positions: BTreeMap<(usize, usize), Wanted>,
}

#[derive(Clone, Debug, Default)]
struct Wanted {
    /// What the given position has less than the posted one.
    missing: i128,
    now: i128,
    /// The calls for each of [`Move::ALL`].
    found: [CallLines; Move::ALL.len()],
}

impl Search {
    /// Looks for calls that explain what is missing at a place.
    pub fn want(&mut self, account: usize, place: usize, missing: i128) {
        let wanted = Wanted {
            missing,
            ..Wanted::default()
        };
        self.positions.insert((account, place), wanted);
    }

    pub fn is_empty(&self) -> bool {
        self.positions.is_empty()
    }

    /// What was found for a position.
    pub fn parting(&self, account: usize, place: usize) -> Option<Parting> {
        let wanted = self.positions.get(&(account, place))?;
        let mut found = Move::ALL.into_iter().zip(&wanted.found);
        let (what, calls) = found.find(|(_, calls)| !calls.is_empty())?;
        Some(Parting::MoveOf(what, calls.clone()))
    }

    /// Takes what a line of the day came to.
    pub fn entry(&mut self, entry: &Entry, posting: &Posting) {
        match Effect::of(entry) {
            None => {}
            Some(Effect::Opens) => self.open(posting),
            Some(Effect::Moves(moving)) => self.after(&moving, posting),
        }
    }

    fn open(&mut self, posting: &Posting) {
        for (&(account, place), wanted) in &mut self.positions {
            wanted.found = Default::default();
            if account < posting.accounts() {
                wanted.now = posting.at(account, place).posted();
            }
        }
    }

    fn after(&mut self, moving: &Moving<'_>, posting: &Posting) {
        for account in moving.accounts {
            let positions = self.positions.range_mut((account, 0)..(account + 1, 0));
            for (&(_, place), wanted) in positions {
                let before = wanted.now;
                wanted.now = posting.at(account, place).posted();
                wanted.test(Part::Whole, moving.by, wanted.now - before);
                if place == posting.cash() {
                    for amount in moving.cash_parts(account) {
                        wanted.test(Part::CashRecords, moving.by, amount);
                    }
                }
            }
        }
    }
}

impl Wanted {
    /// Keeps a call that moved what is missing, or as much the other way,
    /// which is then given twice.
    fn test(&mut self, part: Part, by: CallLine, amount: i128) {
        for (what, calls) in Move::ALL.into_iter().zip(&mut self.found) {
            let wanted = if what.twice {
                -self.missing
            } else {
                self.missing
            };
            if what.part == part && wanted == amount {
                calls.add(by);
            }
        }
    }
}

#[cfg(test)]
mod tests {
    use super::super::calls::tests::{accepted, creation, made, opening, trade};
    use super::*;
    use crate::said::Made;
    use crate::sample::{day, holdings, list, CASH, CMB, UNIT};
    use roffelaine::Units;

    /// A search for what is missing at a place of account 1, which creates a
    /// basket in line 43 and sells 100 units in lines 44 and 45.
    fn searched(place: usize, missing: i128) -> Search {
        let mut search = Search::default();
        search.want(1, place, missing);
        let mut posting = Posting::of(&holdings());
        search.entry(&opening(39), &posting);
        let records = day().create(1, Units(1_000_000)).expect("records").records;
        posting.post(&list(), &creation(), &records);
        let created = accepted(43, creation(), made(records));
        search.entry(&created, &posting);
        for line in [44, 45] {
            posting.post(&list(), &trade(1, 2), &[]);
            search.entry(&accepted(line, trade(1, 2), Made::Done), &posting);
        }
        search
    }

    fn found(place: usize, missing: i128) -> Option<String> {
        let parting = searched(place, missing).parting(1, place);
        parting.map(|parting| parting.to_string())
    }

    #[test]
    fn calls_are_found_by_what_they_moved() {
        let found = |place, missing| found(place, missing).expect("a call");
        assert_eq!(
            found(CMB, -3_000),
            "the difference is that of line 43 create"
        );
        assert_eq!(
            found(CMB, 3_000),
            "the difference is that of line 43 create, posted twice"
        );
        assert_eq!(
            found(UNIT, -100),
            "the difference is that of line 44 trade or line 45 trade"
        );
        assert_eq!(
            found(CASH, -287_008_000),
            "the difference is that of line 43 create"
        );
    }

    #[test]
    fn cash_records_are_found_too() {
        for missing in [113_000_000, 600_000, 113_600_000, 408_000] {
            assert_eq!(
                found(CASH, -missing).as_deref(),
                Some("the difference is that of cash records of line 43 create")
            );
        }
        assert_eq!(
            found(CASH, 408_000).as_deref(),
            Some("the difference is that of cash records of line 43 create, posted twice")
        );
    }

    #[test]
    fn what_no_call_moved_is_not_found() {
        assert_eq!(found(CMB, 1), None);
        assert_eq!(found(CASH, 1), None);
    }

    #[test]
    fn calls_of_a_day_before_are_forgotten() {
        let mut search = searched(UNIT, -100);
        let mut posting = Posting::of(&holdings());
        search.entry(&opening(50), &posting);
        assert_eq!(search.parting(1, UNIT), None);
        posting.post(&list(), &trade(1, 2), &[]);
        search.entry(&accepted(51, trade(1, 2), Made::Done), &posting);
        let parting = search.parting(1, UNIT).expect("a call");
        assert_eq!(
            parting.to_string(),
            "the difference is that of line 51 trade"
        );
    }
}
