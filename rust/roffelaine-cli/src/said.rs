//! What a rehearsal says of its lines, for the forms that print it.

use crate::statement::Call;
use roffelaine::{FlagTable, Lots, Money, Record, ReferenceValue, Refusal, Report, Units};

/// What a line of a day came to; lines with nothing to say have none.
#[derive(Clone, Debug, PartialEq, Eq)]
pub struct Entry {
    /// The line of the file, from 1.
    pub line: usize,
    pub said: Said,
}

#[derive(Clone, Debug, PartialEq, Eq)]
pub enum Said {
    Answer(Answer),
    Account(Position),
    Totals(Vec<Total>),
    NotUnderstood {
        column: usize,
        why: String,
    },
    /// An opening that was not asked of the day book.
    NotMade {
        why: String,
    },
    Met,
    NotMet {
        why: String,
    },
}

/// A call, and what the day book answered.
#[derive(Clone, Debug, PartialEq, Eq)]
pub struct Answer {
    pub call: Call,
    pub outcome: Result<Made, Refused>,
}

/// What an accepted call gives.
#[derive(Clone, Debug, PartialEq, Eq)]
pub enum Made {
    Done,
    Opened {
        /// The flag table, none where no line gives a row of it.
        table: Option<Box<FlagTable>>,
    },
    Value(ReferenceValue),
    Order {
        records: Vec<Record>,
        /// None where reports are off.
        reports: Option<Reports>,
    },
    /// The tests of an order alone: how much the order would make.
    Tested {
        records: usize,
        /// To each party; none where reports are off.
        reports: Option<usize>,
    },
}

/// The execution reports of an order.
#[derive(Clone, Debug, PartialEq, Eq)]
pub struct Reports {
    pub investor: Vec<Report>,
    pub fund: Vec<Report>,
}

impl Reports {
    /// Each party's name with its reports, the investor's first.
    pub fn by_party(&self) -> [(&'static str, &[Report]); 2] {
        [("investor", &self.investor), ("fund", &self.fund)]
    }
}

/// A refusal, and the reason with its figures.
#[derive(Clone, Debug, PartialEq, Eq)]
pub struct Refused {
    pub refusal: Refusal,
    pub reason: String,
}

impl Answer {
    /// The records that the call made.
    pub fn records(&self) -> &[Record] {
        match &self.outcome {
            Ok(Made::Order { records, .. }) => records,
            _ => &[],
        }
    }

    /// The reports that the call made, where they are on.
    pub fn reports(&self) -> Option<&Reports> {
        match &self.outcome {
            Ok(Made::Order { reports, .. }) => reports.as_ref(),
            _ => None,
        }
    }
}

/// What an account has; lines of which it has nothing are left out.
#[derive(Clone, Debug, PartialEq, Eq)]
pub struct Position {
    pub account: usize,
    pub cash: Money,
    pub created: Units,
    pub redeemed: Units,
    pub lots: Vec<(u64, Lots)>,
}

/// What moved of a line or of cash, over the fund and all accounts.
#[derive(Clone, Debug, PartialEq, Eq)]
pub struct Total {
    /// The line's code, none for cash.
    pub code: Option<u64>,
    pub opened: i128,
    pub came_in: i128,
    pub went_out: i128,
    pub holds: i128,
}

impl Total {
    /// Whether what is held is what was opened with and moved.
    pub fn balances(&self) -> bool {
        self.opened + self.came_in - self.went_out == self.holds
    }
}

/// How many lines came to what.
#[derive(Clone, Copy, Debug, Default, PartialEq, Eq)]
pub struct Counts {
    pub accepted: usize,
    pub refused: usize,
    pub not_understood: usize,
    pub met: usize,
    pub not_met: usize,
}

impl Counts {
    pub fn add(&mut self, said: &Said) {
        match said {
            Said::Answer(Answer { outcome: Ok(_), .. }) => self.accepted += 1,
            Said::Answer(Answer {
                outcome: Err(_), ..
            }) => self.refused += 1,
            Said::NotUnderstood { .. } | Said::NotMade { .. } => self.not_understood += 1,
            Said::Met => self.met += 1,
            Said::NotMet { .. } => self.not_met += 1,
            Said::Account(_) | Said::Totals(_) => {}
        }
    }

    pub fn calls(&self) -> usize {
        self.accepted + self.refused
    }

    /// Whether every line was understood and every expectation met; with
    /// `strict` also whether no call was refused.
    pub fn is_clean(&self, strict: bool) -> bool {
        self.not_understood == 0 && self.not_met == 0 && !(strict && self.refused > 0)
    }
}

impl std::fmt::Display for Counts {
    fn fmt(&self, out: &mut std::fmt::Formatter<'_>) -> std::fmt::Result {
        let Counts {
            accepted,
            refused,
            not_understood,
            met,
            not_met,
        } = self;
        let calls = self.calls();
        write!(
            out,
            "{calls} calls, {accepted} accepted, {refused} refused, {not_understood} not understood"
        )?;
        match met + not_met {
            0 => Ok(()),
            all => write!(out, ", {met} of {all} expectations met"),
        }
    }
}
