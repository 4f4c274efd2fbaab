//! Execution reports of an order, written to the lists lent as flat runs.

/// Numbers of a report: type, side, code, quantity, three groups of kind and
/// amount.
pub const REPORT_NUMBERS: usize = 10;

/// The types: of the unit, of a component moved, and of all cash.
pub const UNIT_REPORT: u64 = 1;
pub const STOCK_REPORT: u64 = 2;
pub const CASH_REPORT: u64 = 3;

/// The kinds of cash: Shanghai, and other.
pub const SHANGHAI_KIND: u64 = 1;
pub const OTHER_KIND: u64 = 2;

/// Count of the reports that cash makes.
pub(super) fn cash_report_count(cash: u64) -> u64 {
    u64::from(cash > 0)
}

/// Writes the reports to one party one after another; the list must be long
/// enough.
pub(super) struct ReportWriter<'a> {
    list: &'a mut [u64],
    count: usize,
}

impl<'a> ReportWriter<'a> {
    pub(super) fn new(list: &'a mut [u64]) -> Self {
        ReportWriter { list, count: 0 }
    }

    /// A report of units or stock: it has no groups.
    #[inline]
    pub(super) fn moved(&mut self, report_type: u64, side: u64, code: u64, quantity: u64) {
        self.report([report_type, side, code, quantity, 0, 0, 0, 0, 0, 0]);
    }

    /// The report of all cash: Shanghai first, a kind without cash left out;
    /// none where there is no cash.
    pub(super) fn cash(&mut self, side: u64, shanghai: u64, other: u64) {
        let groups = match (shanghai, other) {
            (0, 0) => return,
            (shanghai, 0) => [SHANGHAI_KIND, shanghai, 0, 0],
            (0, other) => [OTHER_KIND, other, 0, 0],
            (shanghai, other) => [SHANGHAI_KIND, shanghai, OTHER_KIND, other],
        };
        let [kind, amount, next_kind, next_amount] = groups;
        self.report([
            CASH_REPORT,
            side,
            0,
            0,
            kind,
            amount,
            next_kind,
            next_amount,
            0,
            0,
        ]);
    }

    #[inline]
    fn report(&mut self, numbers: [u64; REPORT_NUMBERS]) {
        let place = &mut self.list[REPORT_NUMBERS * self.count..][..REPORT_NUMBERS];
        place.copy_from_slice(&numbers);
        self.count += 1;
    }

    pub(super) fn count(&self) -> u64 {
        self.count as u64
    }
}
