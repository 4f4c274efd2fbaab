//! The records of an order and the reports to both parties, written side by
//! side.

use super::order_lists::Lists;
use super::orders::{Kind, Terms};
use super::records::{RecordWriter, BUY, SELL};
use super::refusal::Counts;
use super::reports::{ReportWriter, STOCK_REPORT, UNIT_REPORT};

/// Writes to the three lists, which must be long enough.
pub(super) struct OrderWriter<'a> {
    records: RecordWriter<'a>,
    investor: ReportWriter<'a>,
    fund: ReportWriter<'a>,
    first_code: u64,
    units: u64,
    /// The investor's side on units and cash, and that on stock. The fund has
    /// the other one of each.
    side: u64,
    stock_side: u64,
}

impl<'a> OrderWriter<'a> {
    /// Starts with the units.
    pub(super) fn start(kind: Kind, first_code: u64, units: u64, lists: Lists<'a>) -> Self {
        let (side, stock_side) = match kind {
            Kind::Creation => (BUY, SELL),
            Kind::Redemption => (SELL, BUY),
        };
        let mut writer = OrderWriter {
            records: RecordWriter::new(lists.records),
            investor: ReportWriter::new(lists.investor),
            fund: ReportWriter::new(lists.fund),
            first_code,
            units,
            side,
            stock_side,
        };
        writer.moved(UNIT_REPORT, side, stock_side, first_code, units);
        writer
    }

    /// A component of which stock moved, next in list order.
    #[inline]
    pub(super) fn stock(&mut self, code: u64, quantity: u64) {
        let (side, fund_side) = (self.stock_side, self.side);
        self.moved(STOCK_REPORT, side, fund_side, code, quantity);
    }

    #[inline]
    fn moved(&mut self, report_type: u64, side: u64, fund_side: u64, code: u64, quantity: u64) {
        self.records.moved(code, side, quantity);
        self.investor.moved(report_type, side, code, quantity);
        self.fund.moved(report_type, fund_side, code, quantity);
    }

    /// Ends with the cash, and with the second record of the units.
    pub(super) fn finish(mut self, terms: &Terms) -> Counts {
        let (other, shanghai) = (terms.other_cash, terms.shanghai_cash);
        self.records.cash(self.first_code + 5, self.side, other);
        self.records.cash(self.first_code + 2, self.side, shanghai);
        self.records
            .moved(self.first_code + 1, self.side, self.units);
        self.investor.cash(self.side, shanghai, other);
        self.fund.cash(self.stock_side, shanghai, other);
        Counts {
            records: self.records.count(),
            reports: self.investor.count(),
        }
    }
}
