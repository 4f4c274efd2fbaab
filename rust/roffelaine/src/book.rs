//! The book, read by account and line.

use crate::layout::{stretch_width, LOTS, STRETCH_HEAD};
use crate::{Money, Units};

/// The book of a day; account 0 is the fund.
#[derive(Clone, Copy, Debug)]
pub struct Book<'b> {
    numbers: &'b [u64],
    width: usize,
}

/// What an account has.
#[derive(Clone, Copy, Debug)]
pub struct Account<'b> {
    stretch: &'b [u64],
}

/// The lots of a line.
#[derive(Clone, Copy, Debug, Default, PartialEq, Eq, Hash)]
pub struct Lots {
    /// Held since the opening: may be sold and handed in.
    pub old: u64,
    /// Bought today: may be handed in, not sold.
    pub bought: u64,
    /// Created or got by redemption today: may be sold, not handed in.
    pub got: u64,
}

impl Lots {
    /// All three together.
    pub const fn total(&self) -> u64 {
        self.old + self.bought + self.got
    }

    /// What a sale may take.
    pub const fn sellable(&self) -> u64 {
        self.got + self.old
    }

    /// What a creation or a redemption may take.
    pub const fn handable(&self) -> u64 {
        self.bought + self.old
    }
}

impl<'b> Book<'b> {
    pub(crate) fn new(numbers: &'b [u64], components: usize) -> Self {
        Book {
            numbers,
            width: stretch_width(components),
        }
    }

    /// All numbers of the book: for each account cash, created, redeemed, then
    /// old, bought and got of each line.
    pub fn numbers(&self) -> &'b [u64] {
        self.numbers
    }

    /// How many accounts there are.
    pub fn accounts(&self) -> usize {
        self.numbers.len() / self.width
    }

    /// An account, none where the day has not so many.
    pub fn account(&self, account: usize) -> Option<Account<'b>> {
        let start = account.checked_mul(self.width)?;
        let stretch = self.numbers.get(start..)?.get(..self.width)?;
        Some(Account { stretch })
    }
}

impl Account<'_> {
    /// Its cash.
    pub fn cash(&self) -> Money {
        Money(self.stretch[0])
    }

    /// Units created today.
    pub fn created(&self) -> Units {
        Units(self.stretch[1])
    }

    /// Units redeemed today.
    pub fn redeemed(&self) -> Units {
        Units(self.stretch[2])
    }

    /// How many lines there are, the unit's too.
    pub fn lines(&self) -> usize {
        (self.stretch.len() - STRETCH_HEAD) / LOTS
    }

    /// The lots of a line; the last one is the unit.
    ///
    /// # Panics
    ///
    /// Where the day has no such line.
    pub fn lots(&self, line: usize) -> Lots {
        let lots = &self.stretch[STRETCH_HEAD + LOTS * line..][..LOTS];
        Lots {
            old: lots[0],
            bought: lots[1],
            got: lots[2],
        }
    }
}
