//! A list of calls for the driver, and what came of them.

use crate::layout::{ANSWER_NUMBERS, ROW_NUMBERS};
use crate::lent::{Lengths, Lists, Reply};
use crate::records::records_of;
use crate::reports::reports_of;
use crate::{Counts, Execution, Money, Record, Refusal, Report, Rooms, Trade, Units};

/// The kinds of the driver's rows.
const PRICE: u64 = 1;
const TRADE: u64 = 2;
const CREATE: u64 = 3;
const REDEEM: u64 = 4;
const VALUE: u64 = 5;

/// Calls to make in one go, with one pass over the book for all of them. Each
/// order has its own lists of records and of reports.
///
/// ```
/// use roffelaine::{Batch, Component, Day, Fund, Holdings, Money, Refusal, Trade};
///
/// # fn main() -> Result<(), Refusal> {
/// # let fund = Fund { first_code: 510_300, basket_size: roffelaine::Units(1), ..Fund::default() };
/// # let stock = Component { code: 600_036, quantity: 30, ..Component::default() };
/// # let holder = Holdings { cash: Money::from_yuan(9_000), lines: vec![60, 0] };
/// # let accounts = [Holdings { cash: Money(0), lines: vec![0, 0] }, holder.clone(), holder];
/// let mut day = Day::open(&fund, &[stock], &accounts)?;
/// let mut batch = Batch::default();
/// batch.set_price(0, Money::from_yuan(40));
/// batch.trade(&Trade { line: 0, quantity: 50, price: Money::from_yuan(40), seller: 1, buyer: 2 });
/// batch.trade(&Trade { line: 0, quantity: 50, price: Money::from_yuan(40), seller: 1, buyer: 2 });
/// let outcome = day.run(&batch);
/// assert_eq!(outcome.answers(), [Ok(0), Ok(0), Err(Refusal::ShortOfStock { place: 0 })]);
/// # Ok(())
/// # }
/// ```
#[derive(Clone, Debug, Default, PartialEq, Eq)]
pub struct Batch {
    rows: Vec<u64>,
    /// How long the three runs are before each call's parts, which start
    /// there, and behind the last.
    starts: Vec<Lengths>,
    lengths: Lengths,
}

impl Batch {
    /// How many calls there are.
    pub fn len(&self) -> usize {
        self.starts.len()
    }

    /// Whether there is no call.
    pub fn is_empty(&self) -> bool {
        self.starts.is_empty()
    }

    /// The calls as the driver takes them.
    pub(crate) fn rows(&self) -> &[u64] {
        &self.rows
    }

    /// Sets a component's price.
    pub fn set_price(&mut self, line: usize, price: Money) {
        self.push(&[PRICE, line as u64, price.0], Lengths::default());
    }

    /// Moves stock or units from seller to buyer.
    pub fn trade(&mut self, trade: &Trade) {
        let (line, quantity, price) = (trade.line as u64, trade.quantity, trade.price.0);
        let (seller, buyer) = (trade.seller as u64, trade.buyer as u64);
        let row = [TRADE, line, quantity, price, seller, buyer];
        self.push(&row, Lengths::default());
    }

    /// Creates units, with lists of such rooms.
    pub fn create(&mut self, account: usize, units: Units, rooms: Rooms) {
        self.order(CREATE, account, units, rooms);
    }

    /// Redeems units, with lists of such rooms.
    pub fn redeem(&mut self, account: usize, units: Units, rooms: Rooms) {
        self.order(REDEEM, account, units, rooms);
    }

    /// Asks for the reference value.
    pub fn reference_value(&mut self) {
        self.push(&[VALUE], Lengths::default());
    }

    fn order(&mut self, kind: u64, account: usize, units: Units, rooms: Rooms) {
        let (starts, lengths) = (self.lengths, rooms.lengths());
        let parts = [
            starts.records,
            lengths.records,
            starts.investor,
            lengths.investor,
            starts.fund,
            lengths.fund,
        ];
        let mut row = vec![kind, account as u64, units.0];
        row.extend(parts.map(|number| number as u64));
        self.push(&row, lengths);
    }

    /// Adds a row with these numbers in front, and parts of these lengths to
    /// the runs.
    fn push(&mut self, row: &[u64], lengths: Lengths) {
        self.rows.extend_from_slice(row);
        self.starts.push(self.lengths);
        self.rows.resize(ROW_NUMBERS * self.starts.len(), 0);
        self.lengths.records += lengths.records;
        self.lengths.investor += lengths.investor;
        self.lengths.fund += lengths.fund;
    }
}

/// The answers to a batch, and the records and reports that its orders made.
#[derive(Clone, Debug, PartialEq, Eq)]
pub struct Outcome {
    answers: Vec<u64>,
    starts: Vec<Lengths>,
    records: Vec<u64>,
    investor: Vec<u64>,
    fund: Vec<u64>,
}

impl Outcome {
    /// Room for what a batch will make.
    pub(crate) fn of(batch: &Batch) -> Self {
        Outcome {
            answers: vec![0; batch.len() * ANSWER_NUMBERS],
            starts: batch.starts.clone(),
            records: vec![0; batch.lengths.records],
            investor: vec![0; batch.lengths.investor],
            fund: vec![0; batch.lengths.fund],
        }
    }

    /// What the driver is lent: the three runs, and the answers.
    pub(crate) fn lent(&mut self) -> (Lists<'_>, &mut [u64]) {
        let lists = Lists {
            records: &mut self.records,
            investor: &mut self.investor,
            fund: &mut self.fund,
        };
        (lists, &mut self.answers)
    }

    /// The answer to each call: the count of records or the reference value in
    /// ten-thousandths of a yuan, else 0.
    pub fn answers(&self) -> Vec<Result<u64, Refusal>> {
        (0..self.starts.len())
            .map(|call| self.answer(call))
            .collect()
    }

    /// The answer to a call.
    ///
    /// # Panics
    ///
    /// Where the batch has no such call.
    pub fn answer(&self, call: usize) -> Result<u64, Refusal> {
        self.reply(call).outcome()
    }

    /// How much the order of a call made.
    ///
    /// # Panics
    ///
    /// Where the batch has no such call.
    pub fn counts(&self, call: usize) -> Result<Counts, Refusal> {
        self.reply(call).counts()
    }

    fn reply(&self, call: usize) -> Reply {
        let numbers = &self.answers[ANSWER_NUMBERS * call..][..ANSWER_NUMBERS];
        Reply {
            number: numbers[0],
            place: numbers[1],
            value: numbers[2],
            reports: numbers[3],
        }
    }

    /// The records of a call; none where it was refused or is no order.
    ///
    /// # Panics
    ///
    /// Where the batch has no such call.
    pub fn records(&self, call: usize) -> Vec<Record> {
        let list = &self.records[self.part(call, |lengths| lengths.records)];
        records_of(list, self.made(call).records)
    }

    /// The reports of a call to the investor; none where it was refused or is
    /// no order.
    ///
    /// # Panics
    ///
    /// Where the batch has no such call.
    pub fn investor_reports(&self, call: usize) -> Vec<Report> {
        let list = &self.investor[self.part(call, |lengths| lengths.investor)];
        reports_of(list, self.made(call).reports)
    }

    /// The reports of a call to the fund's manager; none where it was refused
    /// or is no order.
    ///
    /// # Panics
    ///
    /// Where the batch has no such call.
    pub fn fund_reports(&self, call: usize) -> Vec<Report> {
        let list = &self.fund[self.part(call, |lengths| lengths.fund)];
        reports_of(list, self.made(call).reports)
    }

    /// All that a call made.
    ///
    /// # Panics
    ///
    /// Where the batch has no such call.
    pub fn execution(&self, call: usize) -> Execution {
        Execution {
            records: self.records(call),
            investor: self.investor_reports(call),
            fund: self.fund_reports(call),
        }
    }

    /// How much a call made: nothing where it was refused.
    fn made(&self, call: usize) -> Counts {
        self.counts(call).unwrap_or_default()
    }

    /// A call's part of one of the runs.
    fn part(&self, call: usize, of: fn(&Lengths) -> usize) -> std::ops::Range<usize> {
        let whole = Lengths {
            records: self.records.len(),
            investor: self.investor.len(),
            fund: self.fund.len(),
        };
        of(&self.starts[call])..of(self.starts.get(call + 1).unwrap_or(&whole))
    }
}
