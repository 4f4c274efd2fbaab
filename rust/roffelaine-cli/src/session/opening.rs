//! What the lines above `open` give.

use super::{misfit, Misfit, ACCOUNT_WORD, FIRST_WORD};
use crate::flag_rows::{GivenRows, Row};
use roffelaine::{Holdings, Money, MOST_ACCOUNTS};
use std::collections::btree_map::{self, BTreeMap};

/// What the lines above `open` give.
#[derive(Default)]
pub(super) struct Opening {
    pub(super) accounts: Option<(u64, usize)>,
    /// What an account has at a place, and the line that said so.
    pub(super) given: BTreeMap<(u64, usize), (u64, usize)>,
    /// The rows of the flag table, which may stand above `accounts` too.
    pub(super) rows: GivenRows,
    /// How many lines stop `open`.
    pub(super) faulty: usize,
    /// How many of these stand above the last `open`, where there is one;
    /// `accounts` then starts another opening.
    tried: Option<usize>,
    /// The first line that gives something behind the last `open`.
    waiting: Option<usize>,
    /// The line of the opening that was accepted.
    pub(super) open_since: Option<usize>,
}

/// The place of cash among what an opening is given.
pub(super) const CASH: usize = usize::MAX;

impl Opening {
    /// Starts an opening with so many accounts; an earlier one that was tried is
    /// forgotten.
    pub(super) fn start(&mut self, line: usize, accounts: u64) -> Result<(), Misfit> {
        if let (Some((_, before)), None) = (self.accounts, self.tried) {
            let why = format!("`accounts` is given in line {before}");
            return Err(misfit(FIRST_WORD, why));
        }
        let before = std::mem::take(self);
        *self = Opening {
            accounts: Some((accounts, line)),
            faulty: before.faulty - before.tried.unwrap_or(0),
            waiting: Some(line),
            ..Opening::default()
        };
        if before.tried.is_none() {
            self.rows = before.rows;
            self.waiting = before.waiting.or(self.waiting);
        }
        Ok(())
    }

    /// A line `open`, whatever comes of it.
    pub(super) fn is_tried(&mut self) {
        self.tried = Some(self.faulty);
        self.waiting = None;
    }

    /// The first of the lines for which no `open` came.
    pub(super) fn waits_since(&self) -> Option<usize> {
        self.waiting
    }

    /// Gives an account a number of what has this name.
    pub(super) fn give(
        &mut self,
        line: usize,
        (account, place): (u64, usize),
        number: u64,
        name: &str,
    ) -> Result<(), Misfit> {
        self.test_not_open()?;
        let Some((accounts, _)) = self.accounts else {
            let why = "a line `accounts` comes before it".to_string();
            return Err(misfit(FIRST_WORD, why));
        };
        if account >= accounts {
            let why = format!("account {account}: `accounts` says {accounts}, they count from 0");
            return Err(misfit(ACCOUNT_WORD, why));
        }
        match self.given.entry((account, place)) {
            btree_map::Entry::Vacant(vacant) => {
                vacant.insert((number, line));
                self.waiting.get_or_insert(line);
                Ok(())
            }
            btree_map::Entry::Occupied(before) => {
                let before = before.get().1;
                let why = format!("{name} of account {account} is given in line {before}");
                Err(misfit(FIRST_WORD, why))
            }
        }
    }

    /// Gives a flag its row of the flag table. Behind an `open` that was refused
    /// it would be lost at the next `accounts`.
    pub(super) fn give_row(&mut self, line: usize, flag: usize, row: Row) -> Result<(), Misfit> {
        self.test_not_open()?;
        if self.tried.is_some() {
            let why = "a row of another day stands behind its `accounts`".to_string();
            return Err(misfit(FIRST_WORD, why));
        }
        let given = self.rows.give(line, flag, row);
        given.map_err(|why| misfit(FIRST_WORD, why))?;
        self.waiting.get_or_insert(line);
        Ok(())
    }

    /// What an opening is given belongs above it.
    fn test_not_open(&self) -> Result<(), Misfit> {
        match self.open_since {
            None => Ok(()),
            Some(since) => {
                let why = format!("the day is open since line {since}: it belongs above `open`");
                Err(misfit(FIRST_WORD, why))
            }
        }
    }

    /// What each account opens with; one account too many stands for any
    /// number past the most.
    pub(super) fn holdings(&self, lines: usize) -> Vec<Holdings> {
        let accounts = self.accounts.map_or(0, |(accounts, _)| accounts);
        let accounts = accounts.min(MOST_ACCOUNTS as u64 + 1) as usize;
        let blank = Holdings {
            cash: Money(0),
            lines: vec![0; lines],
        };
        let mut holdings = vec![blank; accounts];
        for (&(account, place), &(number, _)) in &self.given {
            let Some(held) = holdings.get_mut(account as usize) else {
                continue;
            };
            match place {
                CASH => held.cash = Money(number),
                line => held.lines[line] = number,
            }
        }
        holdings
    }
}
