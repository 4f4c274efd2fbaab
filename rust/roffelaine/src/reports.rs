//! The execution reports of an order, read from the runs that the archive
//! fills.

use crate::layout::{most_reports, REPORT_NUMBERS};
use crate::{Money, Side, MOST_COMPONENTS};
use std::fmt;

/// The most groups of cash that a report has.
const GROUPS: usize = 3;
/// The place of the groups among a report's numbers, and the numbers of each.
const GROUPS_FROM: usize = 4;
const GROUP_NUMBERS: usize = 2;

const _: () = assert!(GROUPS_FROM + GROUPS * GROUP_NUMBERS == REPORT_NUMBERS);

/// What a report tells of.
#[derive(Clone, Copy, Debug, PartialEq, Eq, Hash)]
pub enum ReportType {
    /// 1, the units.
    Unit,
    /// 2, a component of which stock moved.
    Stock,
    /// 3, all cash of the order.
    Cash,
}

impl ReportType {
    /// All of them, in the order of their numbers from 1.
    pub const ALL: [ReportType; 3] = [ReportType::Unit, ReportType::Stock, ReportType::Cash];

    /// Its number, 1 to 3.
    pub const fn number(self) -> u64 {
        match self {
            ReportType::Unit => 1,
            ReportType::Stock => 2,
            ReportType::Cash => 3,
        }
    }

    const fn from_number(number: u64) -> Self {
        match number {
            1 => ReportType::Unit,
            2 => ReportType::Stock,
            _ => ReportType::Cash,
        }
    }
}

/// The kind of the cash in a group.
#[derive(Clone, Copy, Debug, PartialEq, Eq, Hash)]
pub enum CashKind {
    /// 1, cash for Shanghai components.
    Shanghai,
    /// 2, all other cash.
    Other,
}

impl CashKind {
    /// All of them, in the order in which their groups stand.
    pub const ALL: [CashKind; 2] = [CashKind::Shanghai, CashKind::Other];

    /// Its number, 1 or 2.
    pub const fn number(self) -> u64 {
        match self {
            CashKind::Shanghai => 1,
            CashKind::Other => 2,
        }
    }

    /// None for 0, where a report has no group.
    const fn from_number(number: u64) -> Option<Self> {
        match number {
            0 => None,
            1 => Some(CashKind::Shanghai),
            _ => Some(CashKind::Other),
        }
    }
}

/// A group of a report: the cash of one kind, which is above 0.
#[derive(Clone, Copy, Debug, PartialEq, Eq, Hash)]
pub struct CashGroup {
    /// Its kind.
    pub kind: CashKind,
    /// How much it is.
    pub amount: Money,
}

/// An execution report of an order, to the investor or to the fund's manager.
/// Types 1 and 2 use code and quantity, type 3 the groups; what a type does not
/// use is 0, or no group.
#[derive(Clone, Copy, Debug, PartialEq, Eq, Hash)]
pub struct Report {
    /// What it tells of.
    pub report_type: ReportType,
    /// Bought or sold, as its receiver sees it.
    pub side: Side,
    /// The fund's first code, or the component's.
    pub code: u64,
    /// Units or shares.
    pub quantity: u64,
    /// The cash, Shanghai first; those that are there stand in front.
    pub groups: [Option<CashGroup>; GROUPS],
}

impl Report {
    fn from_numbers(numbers: &[u64]) -> Self {
        let group = |at: usize| {
            let group = &numbers[GROUPS_FROM + GROUP_NUMBERS * at..];
            CashKind::from_number(group[0]).map(|kind| CashGroup {
                kind,
                amount: Money(group[1]),
            })
        };
        Report {
            report_type: ReportType::from_number(numbers[0]),
            side: Side::from_number(numbers[1]),
            code: numbers[2],
            quantity: numbers[3],
            groups: std::array::from_fn(group),
        }
    }

    /// The same as the other party gets it: on the opposite side.
    pub const fn opposite(self) -> Self {
        Report {
            side: self.side.opposite(),
            ..self
        }
    }
}

/// As the command prints it: type, side, code and quantity, which are 000000
/// and 0 where the type uses none, then kind and amount of each group.
///
/// ```
/// use roffelaine::{CashGroup, CashKind, Money, Report, ReportType, Side};
/// let group = |kind, yuan| Some(CashGroup { kind, amount: Money::from_yuan(yuan) });
/// let report = Report {
///     report_type: ReportType::Cash,
///     side: Side::Buy,
///     code: 0,
///     quantity: 0,
///     groups: [group(CashKind::Shanghai, 173_408), group(CashKind::Other, 113_600), None],
/// };
/// assert_eq!(report.to_string(), "3 1 000000 0 1 173408.000 2 113600.000");
/// assert_eq!(report.opposite().side, Side::Sell);
/// ```
impl fmt::Display for Report {
    fn fmt(&self, out: &mut fmt::Formatter<'_>) -> fmt::Result {
        let (report_type, side) = (self.report_type.number(), self.side.number());
        let (code, quantity) = (self.code, self.quantity);
        write!(out, "{report_type} {side} {code:06} {quantity}")?;
        for group in self.groups.iter().flatten() {
            write!(out, " {} {}", group.kind.number(), group.amount)?;
        }
        Ok(())
    }
}

/// The numbers of a list that has room for so many reports; past what any order
/// makes, room makes no difference.
pub(crate) fn room_numbers(reports: usize) -> usize {
    REPORT_NUMBERS * reports.min(most_reports(MOST_COMPONENTS))
}

/// The first `count` reports of a run.
pub(crate) fn reports_of(run: &[u64], count: usize) -> Vec<Report> {
    run.chunks_exact(REPORT_NUMBERS)
        .take(count)
        .map(Report::from_numbers)
        .collect()
}

/// A list that is lent to orders and takes their reports to one party.
#[derive(Clone, Debug, Default, PartialEq, Eq)]
pub struct ReportList {
    pub(crate) run: Vec<u64>,
}

impl ReportList {
    /// A list with places for so many reports, and for no more than any order
    /// makes.
    pub fn with_room(reports: usize) -> Self {
        ReportList {
            run: vec![0; room_numbers(reports)],
        }
    }

    /// The first `count` reports: those of the last order that was lent this
    /// list, where `count` is what it answered.
    pub fn reports(&self, count: usize) -> Vec<Report> {
        reports_of(&self.run, count)
    }
}

#[cfg(test)]
mod tests {
    use super::*;

    #[test]
    fn reports_are_read_from_their_numbers() {
        let stock = Report::from_numbers(&[2, 2, 600_036, 3_000, 0, 0, 0, 0, 0, 0]);
        assert_eq!(stock.to_string(), "2 2 600036 3000");
        assert_eq!(
            (stock.report_type, stock.groups),
            (ReportType::Stock, [None; 3])
        );
        let other = Report::from_numbers(&[3, 1, 0, 0, 2, 59, 0, 0, 0, 0]);
        assert_eq!(other.to_string(), "3 1 000000 0 2 0.059");
        let opposite = other.opposite();
        assert_eq!(opposite.to_string(), "3 2 000000 0 2 0.059");
        assert_eq!(opposite.opposite(), other);
    }

    #[test]
    fn types_kinds_and_sides_have_their_numbers() {
        for each in ReportType::ALL {
            assert_eq!(ReportType::from_number(each.number()), each);
        }
        for each in CashKind::ALL {
            assert_eq!(CashKind::from_number(each.number()), Some(each));
        }
        for each in [Side::Buy, Side::Sell] {
            assert_eq!(Side::from_number(each.number()), each);
            assert_ne!(each.opposite(), each);
        }
    }
}
