//! Posted, book and given compared at the end of a day.

use super::compare::{compared, Compared};
use super::parting::Parting;
use super::track::Track;
use crate::positions::Positions;
use crate::posting::Posting;
use crate::text::yuan;
use roffelaine::{Book, List};

/// A position that is not the same three ways.
#[derive(Clone, Debug, PartialEq, Eq)]
pub struct Difference {
    pub at: Compared,
    /// None where the position is not given.
    pub given: Option<i128>,
    /// Where given parts from posted and book, which agree.
    pub parting: Option<Parting>,
}

/// All differences, by account and place. A given account must be given whole:
/// what it holds and has no row is a difference.
pub fn differences(
    posting: &Posting,
    book: &Book<'_>,
    positions: &Positions,
    track: &Track<'_>,
) -> Vec<Difference> {
    let whole = positions.accounts();
    let all = (0..posting.accounts()).flat_map(|account| compared(posting, book, account));
    let differences = all.filter_map(|at| {
        let given = positions.at(at.account, at.place);
        let expected = given.or(whole.contains(&at.account).then_some(0));
        let is_same = at.agrees() && expected.is_none_or(|expected| expected == at.posted);
        let parting = track.parting(at.account, at.place);
        let parting = parting.filter(|_| at.agrees());
        (!is_same).then_some(Difference { at, given, parting })
    });
    differences.collect()
}

impl Difference {
    /// What the given position has less than the posted one.
    pub fn missing(&self) -> i128 {
        self.at.posted - self.given.unwrap_or(0)
    }

    /// The difference in a line. Of a position that is not given only a call
    /// is named.
    pub fn words(&self, list: &List<'_>) -> String {
        let Compared {
            account,
            place,
            posted,
            book,
        } = self.at;
        let code = code(list, place);
        let [posted, book] = [posted, book].map(|number| figure(list, place, number));
        let given = self.given.map_or("not given".to_string(), |given| {
            format!("given {}", figure(list, place, given))
        });
        let is_said = |parting: &&Parting| self.given.is_some() || parting.names_a_call();
        let parting = self.parting.as_ref().filter(is_said);
        let parting = parting.map_or(String::new(), |parting| format!(": {parting}"));
        format!("account {account} {code}: posted {posted}, book {book}, {given}{parting}")
    }
}

/// The code of a place, `cash` for that of cash.
pub fn code(list: &List<'_>, place: usize) -> String {
    let components = &list.components;
    match components.get(place) {
        Some(component) => format!("{:06}", component.code),
        None if is_cash(list, place) => "cash".to_string(),
        None => format!("{:06}", list.head.fund.first_code),
    }
}

/// A number at a place, in yuan where it is cash.
pub fn figure(list: &List<'_>, place: usize, number: i128) -> String {
    if is_cash(list, place) {
        yuan(number)
    } else {
        number.to_string()
    }
}

fn is_cash(list: &List<'_>, place: usize) -> bool {
    place > list.components.len()
}

#[cfg(test)]
mod tests {
    use super::super::calls::tests::opening;
    use super::*;
    use crate::sample::{day, holdings, list};
    use roffelaine::Holdings;

    /// The lines of the differences on a day that opens with the sample's
    /// holdings, where the posting opens with others.
    fn lines(posted: impl Fn(&mut [Holdings]), rows: &str) -> Vec<String> {
        let (list, day) = (list(), day());
        let mut posted_holdings = holdings();
        posted(&mut posted_holdings);
        let posting = Posting::of(&posted_holdings);
        let positions = Positions::read(&list, rows.as_bytes());
        let mut track = Track::of(&positions);
        track.entry(&list, &opening(39), &posting, &day.book());
        let found = differences(&posting, &day.book(), &positions, &track);
        found.iter().map(|each| each.words(&list)).collect()
    }

    #[test]
    fn a_given_account_is_given_whole_and_others_are_left_out() {
        let whole = "1,cash,500000\n1,600000,3072\n1,600036,3000\n";
        assert_eq!(lines(|_| {}, whole), [""; 0]);
        assert_eq!(
            lines(|_| {}, "1,600000,3072\n1,510300,7\n"),
            [
                "account 1 600036: posted 3000, book 3000, not given",
                "account 1 510300: posted 0, book 0, given 7: it never moved",
                "account 1 cash: posted 500000.000, book 500000.000, not given",
            ]
        );
    }

    #[test]
    fn posted_and_book_are_compared_in_all_accounts() {
        let rows = "1,cash,500000\n1,600000,3072\n1,600036,3000\n";
        let wrong = |holdings: &mut [Holdings]| {
            holdings[1].lines[2] = 8_272;
            holdings[2].cash.0 += 1;
        };
        assert_eq!(
            lines(wrong, rows),
            [
                "account 1 600000: posted 8272, book 3072, given 3072",
                "account 2 cash: posted 100000.001, book 100000.000, not given",
            ]
        );
    }
}
