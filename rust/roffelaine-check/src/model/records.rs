//! Records of an order, written to the lent list as a flat run.

/// Numbers of a record: code, side, quantity, price, amount.
pub const RECORD_NUMBERS: usize = 5;
/// Side B.
pub const BUY: u64 = 1;
/// Side S.
pub const SELL: u64 = 2;

/// Cash from this much on is split in two records (1,000 yuan).
const SPLIT_SIZE: u64 = 1_000_000;

/// Count of the records that cash makes.
pub(super) fn cash_record_count(cash: u64) -> u64 {
    match cash {
        0 => 0,
        1..SPLIT_SIZE => 1,
        SPLIT_SIZE.. => 2,
    }
}

/// Writes records one after another; the list must be long enough.
pub(super) struct RecordWriter<'a> {
    list: &'a mut [u64],
    count: usize,
}

impl<'a> RecordWriter<'a> {
    pub(super) fn new(list: &'a mut [u64]) -> Self {
        RecordWriter { list, count: 0 }
    }

    /// A record of units or stock: price and amount are 0.
    #[inline]
    pub(super) fn moved(&mut self, code: u64, side: u64, quantity: u64) {
        self.record(code, side, quantity, 0);
    }

    /// The records of a cash total: none at 0, two from the split size on.
    pub(super) fn cash(&mut self, code: u64, side: u64, cash: u64) {
        if cash >= SPLIT_SIZE {
            self.record(code, side, SPLIT_SIZE, cash / SPLIT_SIZE);
            self.record(code, side, 1, cash % SPLIT_SIZE);
        } else if cash > 0 {
            self.record(code, side, 1, cash);
        }
    }

    #[inline]
    fn record(&mut self, code: u64, side: u64, quantity: u64, price: u64) {
        let place = &mut self.list[RECORD_NUMBERS * self.count..][..RECORD_NUMBERS];
        place.copy_from_slice(&[code, side, quantity, price, quantity * price]);
        self.count += 1;
    }

    pub(super) fn count(&self) -> u64 {
        self.count as u64
    }
}
