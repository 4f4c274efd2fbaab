//! What an order is lent, what it answers and what it makes.

use crate::layout::{most_records, most_reports};
use crate::lent::{Lengths, Lists};
use crate::{records, reports};
use crate::{Record, RecordList, Report, ReportList};

/// How many records and reports the lists of an order take.
#[derive(Clone, Copy, Debug, Default, PartialEq, Eq, Hash)]
pub struct Rooms {
    /// Records.
    pub records: usize,
    /// Reports to the investor.
    pub investor: usize,
    /// Reports to the fund's manager.
    pub fund: usize,
}

impl Rooms {
    /// Room for so many records, and for so many reports to each party.
    pub const fn of(counts: Counts) -> Self {
        Rooms {
            records: counts.records,
            investor: counts.reports,
            fund: counts.reports,
        }
    }

    /// Room for any order on so many components.
    pub(crate) const fn ample(components: usize) -> Self {
        Rooms::of(Counts {
            records: most_records(components),
            reports: most_reports(components),
        })
    }

    /// The numbers of lists with such rooms.
    pub(crate) fn lengths(self) -> Lengths {
        Lengths {
            records: records::room_numbers(self.records),
            investor: reports::room_numbers(self.investor),
            fund: reports::room_numbers(self.fund),
        }
    }
}

/// How much an accepted order makes.
#[derive(Clone, Copy, Debug, Default, PartialEq, Eq, Hash)]
pub struct Counts {
    /// Records.
    pub records: usize,
    /// Reports to each of the two parties.
    pub reports: usize,
}

/// What an accepted order makes.
#[derive(Clone, Debug, Default, PartialEq, Eq)]
pub struct Execution {
    /// The records that brokers and the fund's manager post from.
    pub records: Vec<Record>,
    /// The reports to the investor.
    pub investor: Vec<Report>,
    /// The reports to the fund's manager: the investor's on the opposite sides.
    pub fund: Vec<Report>,
}

/// The three lists that an order is lent.
#[derive(Clone, Debug, Default, PartialEq, Eq)]
pub struct OrderLists {
    /// Takes the records.
    pub records: RecordList,
    /// Takes the reports to the investor.
    pub investor: ReportList,
    /// Takes the reports to the fund's manager.
    pub fund: ReportList,
}

impl OrderLists {
    /// Lists with such rooms, and with no more than any order needs.
    pub fn with_rooms(rooms: Rooms) -> Self {
        OrderLists {
            records: RecordList::with_room(rooms.records),
            investor: ReportList::with_room(rooms.investor),
            fund: ReportList::with_room(rooms.fund),
        }
    }

    pub(crate) fn lent(&mut self) -> Lists<'_> {
        Lists {
            records: &mut self.records.run,
            investor: &mut self.investor.run,
            fund: &mut self.fund.run,
        }
    }

    /// What the last order that was lent these lists made, where `counts` is
    /// what it answered.
    pub fn execution(&self, counts: Counts) -> Execution {
        Execution {
            records: self.records.records(counts.records),
            investor: self.investor.reports(counts.reports),
            fund: self.fund.reports(counts.reports),
        }
    }
}
